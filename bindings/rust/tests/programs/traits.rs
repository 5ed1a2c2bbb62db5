//! A service that was written for RustCrypto's `argon2` 0.5. Only its manifest names another package. Its encoded
//! hashes are those of libargon2. The function `differs` has what differs from RustCrypto's crate.
#![allow(clippy::clone_on_copy)] // RustCrypto's are not `Copy`

use argon2::{
    password_hash::{rand_core::OsRng, PasswordHash, PasswordHasher, PasswordVerifier, Salt, SaltString},
    Algorithm, Argon2, Params, Version,
};

const STORED: [&str; 4] = [
    "$argon2id$v=19$m=256,t=2,p=1$c29tZXNhbHQ$nf65EOgLrQMR/uIPnA4rEsF5h7TKyQwu9U1bMCHGi/4",
    "$argon2i$v=19$m=256,t=2,p=1$c29tZXNhbHQ$iekCn0Y3spW+sCcFanM2xBT63UP2sghkUoHLIUpWRS8",
    "$argon2i$v=16$m=256,t=2,p=1$c29tZXNhbHQ$/U3YPXYsSb3q9XxHvc0MLxur+GP960kN9j7emXX8zwY",
    "$argon2id$v=19$m=256,t=2,p=2$c29tZXNhbHQ$bQk8UB/VmZZF4Oo79iDXuL5/0ttZwg2f/5U52iv1cDc",
];
const WITHOUT_VERSION: &str = "$argon2i$m=256,t=2,p=1$c29tZXNhbHQ$/U3YPXYsSb3q9XxHvc0MLxur+GP960kN9j7emXX8zwY";

fn verdict(hasher: &Argon2<'_>, stored: &str, password: &[u8]) -> argon2::password_hash::Result<()> {
    hasher.verify_password(password, &PasswordHash::new(stored)?)
}

fn registers_and_logs_in() {
    let argon2 = Argon2::default();
    let stored = argon2.hash_password(b"password", &SaltString::generate(&mut OsRng)).unwrap().to_string();
    assert!(stored.starts_with("$argon2id$v=19$m=19456,t=2,p=1$"), "{stored}");
    assert!(verdict(&argon2, &stored, b"password").is_ok());
    assert!(verdict(&argon2, &stored, b"Password").is_err());
}

fn reads_and_writes_what_libargon2_does() {
    for stored in STORED {
        assert!(verdict(&Argon2::default(), stored, b"password").is_ok(), "{stored}");
        assert_eq!(verdict(&Argon2::default(), stored, b"Password"), Err(argon2::password_hash::Error::Password));
    }
    let mut out = [0; 32];
    Argon2::new(Algorithm::Argon2i, Version::V0x10, Params::new(256, 2, 1, None).unwrap())
        .hash_password_into(b"password", b"somesalt", &mut out)
        .unwrap();
    assert_eq!(out[..3], [0xfd, 0x4d, 0xd8]);
}

fn takes_a_pepper() {
    let params = Params::new(64, 1, 1, None).unwrap();
    let with = |secret: &'static [u8]| {
        Argon2::new_with_secret(secret, Algorithm::Argon2id, Version::V0x13, params.clone()).unwrap()
    };
    let salt = SaltString::generate(&mut OsRng);
    let stored = with(b"pepper").hash_password(b"password", &salt).unwrap().to_string();
    assert!(stored.starts_with("$argon2id$v=19$m=64,t=1,p=1$"), "{stored}");
    assert!(verdict(&with(b"pepper"), &stored, b"password").is_ok());
    assert!(verdict(&with(b"other"), &stored, b"password").is_err());
}

/// Also of a hasher of the older version.
fn takes_the_newest_version_by_default() {
    let salt = Salt::try_from("c29tZXNhbHQ").unwrap();
    let params = Params::new(256, 2, 1, None).unwrap();
    for version in [Version::V0x10, Version::V0x13] {
        let (hasher, name) = (Argon2::new(Algorithm::Argon2i, version, params.clone()), "argon2i".try_into().unwrap());
        let made = hasher.hash_password_customized(b"password", Some(name), None, params.clone(), salt).unwrap();
        assert_eq!(made.to_string(), STORED[1]);
    }
}

fn rejects_what_is_wrong() {
    assert!(Params::new(7, 1, 1, None).is_err());
    for (from, to) in [("m=256", "m=7"), ("argon2id", "argon2"), ("v=19", "v=18"), ("t=2", "t=0"), ("$nf65", "$n")] {
        let text = STORED[0].replacen(from, to, 1);
        assert!(verdict(&Argon2::default(), &text, b"password").is_err(), "{text}");
    }
}

/// Checks the differences that docs/RUST.md lists.
fn differs() {
    let costly = Argon2::from(Params::new(8, 1000, 1, None).unwrap());
    let stored = costly.hash_password(b"password", &SaltString::generate(&mut OsRng)).unwrap().to_string();
    assert!(verdict(&costly, &stored, b"password").is_ok());
    assert!(verdict(&Argon2::default(), &stored, b"password").is_err());
    assert!(verdict(&Argon2::default(), &STORED[0].replacen("m=256", "m=4294967295", 1), b"password").is_err());
    assert!(verdict(&Argon2::default(), WITHOUT_VERSION, b"password").is_ok());
    assert!(verdict(&Argon2::default(), &STORED[0].replacen("p=1", "p=1,data=AAAA", 1), b"password").is_err());
    let short = "$argon2id$v=19$m=64,t=1,p=1$c29tZXNhbHQ$AAAAAAAA"; // of six bytes
    assert!(PasswordHash::new(short).is_err());
    assert_eq!(argon2::verify_password(short, b"password"), Ok(false));
    let salt = Salt::try_from("c29tZXNhbHQ").unwrap();
    let own = costly.hash_password_customized(b"password", None, None, Params::default(), salt).unwrap();
    assert!(own.to_string().starts_with("$argon2id$v=19$m=8,t=1000,p=1$"), "{own}");
    let older = costly.hash_password_customized(b"password", None, Some(16), Params::default(), salt).unwrap();
    assert!(older.to_string().starts_with("$argon2id$v=16$m=8,t=1000,p=1$"), "{older}");
}

fn main() {
    registers_and_logs_in();
    reads_and_writes_what_libargon2_does();
    takes_a_pepper();
    takes_the_newest_version_by_default();
    rejects_what_is_wrong();
    differs();
}
