//! A service that was written for RustCrypto's `argon2` 0.6. Only the lines with a `Config` are different. Its encoded
//! hashes are those of libargon2.

use argon2::{
    password_hash::{Error, Result},
    Argon2, Config, PasswordHash, PasswordHasher, PasswordVerifier,
};

const STORED: [&str; 4] = [
    "$argon2id$v=19$m=256,t=2,p=1$c29tZXNhbHQ$nf65EOgLrQMR/uIPnA4rEsF5h7TKyQwu9U1bMCHGi/4",
    "$argon2i$v=19$m=256,t=2,p=1$c29tZXNhbHQ$iekCn0Y3spW+sCcFanM2xBT63UP2sghkUoHLIUpWRS8",
    "$argon2i$v=16$m=256,t=2,p=1$c29tZXNhbHQ$/U3YPXYsSb3q9XxHvc0MLxur+GP960kN9j7emXX8zwY",
    "$argon2id$v=19$m=256,t=2,p=2$c29tZXNhbHQ$bQk8UB/VmZZF4Oo79iDXuL5/0ttZwg2f/5U52iv1cDc",
];

/// The verdict on a string and on its parsed form, which have to agree.
fn verdict(hasher: &Argon2<'_>, stored: &str, password: &[u8]) -> Result<()> {
    let said = hasher.verify_password(password, stored);
    let parsed = PasswordHash::new(stored).map_err(Error::from);
    let of_parsed = parsed.and_then(|hash| hasher.verify_password(password, &hash));
    assert_eq!(said, of_parsed, "{stored}");
    said
}

fn registers_and_logs_in() {
    let stored = Argon2::default().hash_password(b"password").unwrap().to_string();
    assert!(stored.starts_with("$argon2id$v=19$m=19456,t=2,p=1$"), "{stored}");
    assert_ne!(stored, Argon2::default().hash_password(b"password").unwrap().to_string());
    assert_eq!(verdict(&Argon2::default(), &stored, b"password"), Ok(()));
    assert_eq!(verdict(&Argon2::default(), &stored, b"Password"), Err(Error::PasswordInvalid));
}

fn reads_and_writes_what_libargon2_does() {
    for stored in STORED {
        assert_eq!(verdict(&Argon2::default(), stored, b"password"), Ok(()), "{stored}");
        assert_eq!(verdict(&Argon2::default(), stored, b"Password"), Err(Error::PasswordInvalid), "{stored}");
    }
    let hasher = Argon2::from(Config { mem_cost: 256, ..Config::default() });
    assert_eq!(hasher.hash_password_with_salt(b"password", b"somesalt").unwrap().to_string(), STORED[0]);
}

fn takes_a_pepper_and_associated_data() {
    let with = |secret, ad| Argon2::from(Config { mem_cost: 64, time_cost: 1, secret, ad, ..Config::default() });
    let stored = with(b"pepper", b"user").hash_password(b"password").unwrap().to_string();
    assert_eq!(verdict(&with(b"pepper", b"user"), &stored, b"password"), Ok(()));
    for other in [with(b"other", b"user"), with(b"pepper", b"other")] {
        assert_eq!(verdict(&other, &stored, b"password"), Err(Error::PasswordInvalid));
    }
}

fn rejects_what_is_wrong() {
    for (from, to, error) in [
        ("m=256", "m=7", Error::ParamInvalid { name: "m" }),
        ("t=2", "t=0", Error::ParamInvalid { name: "t" }),
        ("p=1", "p=0", Error::ParamInvalid { name: "p" }),
        ("v=19", "v=18", Error::EncodingInvalid),
        ("argon2id", "argon2", Error::Algorithm),
        ("p=1", "p=1,data=AAAA", Error::EncodingInvalid),
        ("$nf65", "$n-65", Error::EncodingInvalid),
    ] {
        let text = STORED[0].replacen(from, to, 1);
        assert_eq!(verdict(&Argon2::default(), &text, b"password"), Err(error), "{text}");
    }
    assert_eq!(Argon2::default().verify_password(b"password", "x"), Err(Error::EncodingInvalid));
    let hashed = |salt: &[u8], hash_length| {
        Argon2::from(Config { hash_length, ..Config::default() }).hash_password_with_salt(b"password", salt)
    };
    assert_eq!(hashed(&[0; 7], 32), Err(Error::SaltInvalid));
    assert_eq!(hashed(&[0; 49], 32), Err(Error::SaltInvalid));
    assert_eq!(hashed(&[0; 16], 9), Err(Error::OutputSize));
    assert_eq!(hashed(&[0; 16], 65), Err(Error::OutputSize));
}

/// Checks strings that RustCrypto's crate accepts, or reads as another version.
fn differs() {
    let costly = Argon2::from(Config { mem_cost: 8, time_cost: 1000, ..Config::default() });
    let stored = costly.hash_password(b"password").unwrap().to_string();
    assert_eq!(verdict(&costly, &stored, b"password"), Ok(()));
    for text in [stored, STORED[0].replacen("m=256", "m=4294967295", 1)] {
        assert_eq!(verdict(&Argon2::default(), &text, b"password"), Err(Error::Crypto), "{text}");
    }
    let without_version = STORED[2].replacen("$v=16", "", 1);
    assert_eq!(verdict(&Argon2::default(), &without_version, b"password"), Ok(()));
}

fn main() {
    registers_and_logs_in();
    reads_and_writes_what_libargon2_does();
    takes_a_pepper_and_associated_data();
    rejects_what_is_wrong();
    differs();
}
