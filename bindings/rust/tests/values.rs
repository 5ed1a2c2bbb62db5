//! The values of settings, names, numbers, errors and limits, and how they convert.

use proved_argon2::{
    hash_encoded, needs_rehash, read, verify_encoded, verify_encoded_within, Config, Error, Limits, Memory, ThreadMode,
    Unverified, Variant, Version,
};
use std::error::Error as _;
use Variant::{Argon2d, Argon2i, Argon2id};
use Version::{Version10, Version13};

#[test]
fn variants_convert_from_and_to_numbers_and_names() {
    for (variant, number, lower, upper) in
        [(Argon2d, 0, "argon2d", "Argon2d"), (Argon2i, 1, "argon2i", "Argon2i"), (Argon2id, 2, "argon2id", "Argon2id")]
    {
        assert_eq!(Variant::from_u32(number), Ok(variant));
        assert_eq!((variant.as_u32(), variant.as_u64()), (number, u64::from(number)));
        assert_eq!([lower, upper].map(Variant::from_str), [Ok(variant), Ok(variant)]);
        assert_eq!((variant.as_lowercase_str(), variant.as_uppercase_str()), (lower, upper));
        assert_eq!(variant.to_string(), lower);
    }
    for number in (3..300).chain([0x1_0000, u32::MAX - 1, u32::MAX]) {
        assert_eq!(Variant::from_u32(number), Err(Error::IncorrectType));
    }
    for name in ["", "argon2", "argon2x", "ARGON2ID", "argon2id ", " argon2d", "argon2I", "aRgon2i"] {
        assert_eq!(Variant::from_str(name), Err(Error::DecodingFail), "{name}");
    }
    assert!(Argon2d < Argon2i && Argon2i < Argon2id && Variant::default() == Argon2i);
}

#[test]
fn versions_convert_from_and_to_numbers_and_names() {
    for (version, number, name) in [(Version10, 16, "16"), (Version13, 19, "19")] {
        assert_eq!((Version::from_u32(number), Version::from_str(name)), (Ok(version), Ok(version)));
        assert_eq!((version.as_u32(), version.to_string().as_str()), (number, name));
    }
    for number in (0..300).filter(|number| *number != 16 && *number != 19).chain([u32::MAX]) {
        assert_eq!(Version::from_u32(number), Err(Error::IncorrectVersion));
        assert_eq!(Version::from_str(&number.to_string()), Err(Error::DecodingFail));
    }
    for name in ["", "x", "0x13", "019", " 19", "19 "] {
        assert_eq!(Version::from_str(name), Err(Error::DecodingFail), "{name}");
    }
    assert!(Version10 < Version13 && Version::default() == Version13);
}

#[test]
fn thread_modes_convert_from_numbers_and_limit_the_workers() {
    for threads in (0..40).chain([u32::MAX]) {
        let mode = if threads < 2 { ThreadMode::Sequential } else { ThreadMode::Parallel };
        assert_eq!(ThreadMode::from_threads(threads), mode);
    }
    assert_eq!(ThreadMode::default(), ThreadMode::Sequential);
    for lanes in [1, 2, 3, 4, 5, 100, 16_777_215] {
        let modes = [(ThreadMode::Sequential, 1), (ThreadMode::Parallel, lanes)];
        let at_most = [0, 1, 2, 3, 4, 5, 6, 99, 100, 101, u32::MAX];
        let at_most = at_most.into_iter().map(|most| (ThreadMode::AtMost(most), most.clamp(1, lanes)));
        for (thread_mode, workers) in modes.into_iter().chain(at_most) {
            let config = Config { thread_mode, lanes, ..Config::default() };
            let found = (config.workers(), config.uses_sequential());
            assert_eq!(found, (workers, workers == 1), "{thread_mode:?} {lanes}");
        }
    }
}

/// These strings cannot be written in a line of a file of vectors.
#[test]
fn strings_with_any_bytes_and_lengths_are_passed_completely() {
    let text = "$argon2i$v=19$m=4096,t=3,p=1$c2FsdDEyMzQ$MTIzNDU2Nzg5MDEyMzQ1Njc4OTAxMjM0NTY3ODkwMTI";
    assert_eq!(verify_encoded(text, b"password"), Ok(false));
    let changed = ["\n", " ", "\0"].map(|byte| [format!("{byte}{text}"), format!("{text}{byte}"), byte.to_string()]);
    for text in changed.concat().into_iter().chain([String::new(), "$argon2i".repeat(131_072)]) {
        assert_eq!(verify_encoded(&text, b"password"), Err(Error::DecodingFail), "{text}");
        assert_eq!(needs_rehash(&text, &Config::default()), Err(Error::DecodingFail), "{text}");
        assert_eq!(read(&text), Err(Error::DecodingFail), "{text}");
    }
}

/// Returns whether a password matches an encoded hash, and its lanes. The calls have different error types.
fn is_of(text: &str, pwd: &[u8], limits: &Limits) -> Result<(bool, u32), Unverified> {
    let lanes = read(text)?.lanes;
    Ok((verify_encoded_within(text, pwd, &[], &[], limits)?, lanes))
}

#[test]
fn the_question_mark_converts_both_types_of_errors() {
    let text = hash_encoded(b"password", b"somesalt", &Config::owasp5()).unwrap();
    assert_eq!(is_of(&text, b"password", &Limits::default()), Ok((true, 1)));
    assert_eq!(is_of(&text, b"Password", &Limits::default()), Ok((false, 1)));
    assert_eq!(is_of("x", b"password", &Limits::default()), Err(Unverified::Refused(Error::DecodingFail)));
    let limits = Limits { time_cost: 4, ..Limits::default() };
    assert_eq!(is_of(&text, b"password", &limits), Err(Unverified::TooCostly));
    let refused = Unverified::from(Error::SaltTooShort);
    assert_eq!(refused, Unverified::Refused(Error::SaltTooShort));
    assert_eq!(refused.source().unwrap().downcast_ref(), Some(&Error::SaltTooShort));
    assert_eq!(refused.to_string(), "Salt is too short");
    assert!(Unverified::TooCostly.source().is_none());
}

/// `at_least` admits every hash with these settings, whether they are within the default limits or above them.
#[test]
fn at_least_raises_the_default_limits_to_the_settings() {
    let small = Config { mem_cost: 1360, time_cost: 1, ..Config::default() };
    let default = Limits::default();
    let (most, square) = (u32::MAX, u64::from(u32::MAX) * u64::from(u32::MAX));
    let (lanes, mem_cost, passes) = (default.lanes + 1, default.mem_cost + 1, default.time_cost);
    let of_work = u32::try_from(default.work / u64::from(passes)).unwrap_or(most).min(default.mem_cost);
    let raised = Limits {
        mem_cost: default.mem_cost.max(of_work + 1),
        work: default.work.max(u64::from(of_work + 1) * u64::from(passes)),
        ..default
    };
    for (config, limits) in [
        (small, default),
        (Config { mem_cost, ..small }, Limits { mem_cost, ..default }),
        (Config { mem_cost: most, ..small }, Limits { mem_cost: most, work: most.into(), ..default }),
        (Config { lanes: most, ..small }, Limits { lanes: most, ..default }),
        (Config { time_cost: passes + 1, ..small }, Limits { time_cost: passes + 1, ..default }),
        (Config { mem_cost: of_work, time_cost: passes, ..small }, default),
        (Config { mem_cost: of_work + 1, time_cost: passes, ..small }, raised),
        (
            Config { mem_cost: most, time_cost: most, ..small },
            Limits { mem_cost: most, time_cost: most, work: square, ..default },
        ),
    ] {
        assert_eq!(Limits::at_least(&config), limits);
    }
    let config = Config { time_cost: passes + 1, lanes, ..small };
    let text = hash_encoded(b"password", b"somesalt", &config).unwrap();
    assert_eq!(is_of(&text, b"password", &default), Err(Unverified::TooCostly));
    assert_eq!(is_of(&text, b"password", &Limits::at_least(&config)), Ok((true, lanes)));
}

#[test]
fn settings_are_shown_without_the_secret() {
    fn may_change_threads<T: Send + Sync>(_: &T) {}
    may_change_threads(&Memory::default());
    let config = Config { secret: b"pepper", ad: b"user", ..Config::default() };
    let shown = "Config { ad: [117, 115, 101, 114], hash_length: 32, lanes: 1, mem_cost: 19456, secret: .., \
                 thread_mode: Sequential, time_cost: 2, variant: Argon2id, version: Version13 }";
    assert_eq!(format!("{config:?}"), shown);
    let long = format!("{config:#?}");
    assert!(long.contains("secret: ..,\n") && !long.contains("112"), "{long}");
}
