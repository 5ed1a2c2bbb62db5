use crate::ffi::{self, NEEDS_REHASH, OK};
use crate::run::require_done;
use crate::{Config, Error, Limits, Result, Run, Unverified, Variant, Version};
use std::result;

/// Verifies a password against an encoded hash, without a secret or associated data, and without
/// limits. There are as many threads as the hash has lanes, and at most 16.
///
/// # Errors
///
/// [`Error::DecodingFail`] for a string that is not an encoded hash; otherwise the first parameter
/// error of its settings, or [`Error::OutOfMemory`].
///
/// # Examples
///
/// ```
/// use proved_argon2 as argon2;
///
/// let text = "$argon2i$v=19$m=4096,t=3,p=1$c29tZXNhbHQ$iWh06vD8Fy27wf9npn6FXWiCX4K6pW6Ue1Bnzz07Z8A";
/// assert!(argon2::verify_encoded(text, b"password")?);
/// assert!(!argon2::verify_encoded(text, b"Password")?);
/// # Ok::<(), argon2::Error>(())
/// ```
pub fn verify_encoded(encoded: &str, pwd: &[u8]) -> Result<bool> {
    verify_encoded_ext(encoded, pwd, &[], &[])
}

/// Verifies a password against an encoded hash, with this secret and this associated data, and
/// without limits.
///
/// # Errors
///
/// As [`verify_encoded`], and the errors that the secret or the associated data are too long.
///
/// # Examples
///
/// ```
/// use proved_argon2 as argon2;
///
/// let text = "$argon2i$v=19$m=4096,t=3,p=1$c29tZXNhbHQ$OlcSvlN20Lz43sK3jhCJ9K04oejhiY0AmI+ck6nuETo";
/// assert!(argon2::verify_encoded_ext(text, b"password", b"secret", b"ad")?);
/// # Ok::<(), argon2::Error>(())
/// ```
pub fn verify_encoded_ext(encoded: &str, pwd: &[u8], secret: &[u8], ad: &[u8]) -> Result<bool> {
    Run::new().verify_encoded(encoded, pwd, secret, ad)
}

/// Verifies a password against an encoded hash, with this secret and this associated data, if the
/// hash is within the limits.
///
/// # Errors
///
/// [`Unverified::Refused`] with [`Error::DecodingFail`] for a string that is not an encoded hash. Then
/// [`Unverified::TooCostly`] for a hash above a limit of memory, passes, lanes, or memory times
/// passes, before any memory is allocated. Otherwise [`Unverified::Refused`] with the error of
/// [`verify_encoded_ext`](crate::verify_encoded_ext).
///
/// # Examples
///
/// ```
/// use proved_argon2::{self as argon2, Limits, Unverified};
///
/// let text = "$argon2i$v=19$m=4096,t=3,p=1$c29tZXNhbHQ$iWh06vD8Fy27wf9npn6FXWiCX4K6pW6Ue1Bnzz07Z8A";
/// assert!(argon2::verify_encoded_within(text, b"password", &[], &[], &Limits::default())?);
/// assert!(!argon2::verify_encoded_within(text, b"Password", &[], &[], &Limits::default())?);
/// let limits = Limits { mem_cost: 4095, ..Limits::default() };
/// let answer = argon2::verify_encoded_within(text, b"password", &[], &[], &limits);
/// assert_eq!(answer, Err(Unverified::TooCostly));
/// # Ok::<(), Unverified>(())
/// ```
pub fn verify_encoded_within(
    encoded: &str,
    pwd: &[u8],
    secret: &[u8],
    ad: &[u8],
    limits: &Limits,
) -> result::Result<bool, Unverified> {
    Run::new().verify_encoded_within(encoded, pwd, secret, ad, limits)
}

/// Verifies a password against an encoded hash that is within the default limits, without a secret
/// and associated data.
///
/// # Errors
///
/// As [`verify_encoded_within`].
pub fn verify_password(encoded: &str, pwd: &[u8]) -> result::Result<bool, Unverified> {
    Run::new().verify_password(encoded, pwd)
}

/// Verifies a password against a raw hash (tag). `config.hash_length` is ignored.
///
/// # Errors
///
/// The first parameter error of the settings, or [`Error::OutOfMemory`].
///
/// # Examples
///
/// ```
/// use proved_argon2::{self as argon2, Config};
///
/// let hash = argon2::hash_raw(b"password", b"somesalt", &Config::owasp5())?;
/// assert!(argon2::verify_raw(b"password", b"somesalt", &hash, &Config::owasp5())?);
/// # Ok::<(), argon2::Error>(())
/// ```
pub fn verify_raw(pwd: &[u8], salt: &[u8], hash: &[u8], config: &Config<'_>) -> Result<bool> {
    Run::new().verify_raw(pwd, salt, hash, config)
}

/// Whether an encoded hash was made with another variant, version, memory, passes, lanes or hash
/// length than those of `config`.
///
/// Call it after the password has matched, and hash the password again if it returns true.
///
/// # Errors
///
/// [`Error::DecodingFail`] for a string that is not an encoded hash, or [`Error::OutOfMemory`].
///
/// # Examples
///
/// ```
/// use proved_argon2::{self as argon2, Config};
///
/// let text = argon2::hash_encoded(b"password", b"somesalt", &Config::owasp5())?;
/// assert!(!argon2::needs_rehash(&text, &Config::owasp5())?);
/// assert!(argon2::needs_rehash(&text, &Config::default())?);
/// # Ok::<(), argon2::Error>(())
/// ```
pub fn needs_rehash(encoded: &str, config: &Config<'_>) -> Result<bool> {
    match ffi::needs_rehash(encoded, config) {
        OK => Ok(false),
        NEEDS_REHASH => Ok(true),
        number => Err(Error::of_number(number)),
    }
}

/// What an encoded hash decodes to: its settings, and the lengths of its salt and its hash in
/// bytes.
#[derive(Clone, Copy, Debug, Eq, PartialEq)]
pub struct Stored {
    /// The length of the hash in bytes, or 2^32 - 1 if it is longer.
    pub hash_length: u32,

    /// The lanes.
    pub lanes: u32,

    /// The memory in KiB.
    pub mem_cost: u32,

    /// The length of the salt in bytes. For a longer salt it is 2^32 - 1.
    pub salt_length: u32,

    /// The passes over the memory.
    pub time_cost: u32,

    /// The variant.
    pub variant: Variant,

    /// The version, 0x10 if the encoded hash names none.
    pub version: Version,
}

/// Decodes an encoded hash. Nothing is verified, and settings that no hash can have are decoded too.
///
/// To verify a hash that others may have written, use [`verify_encoded_within`].
///
/// # Errors
///
/// [`Error::DecodingFail`] for a string that is not an encoded hash, or [`Error::OutOfMemory`].
///
/// # Examples
///
/// ```
/// use proved_argon2::{self as argon2, Variant};
///
/// let stored = argon2::read("$argon2i$v=19$m=4096,t=3,p=1$c29tZXNhbHQ$iWh06vD8Fy27wf9npn6FXWiCX4K6pW6Ue1Bnzz07Z8A")?;
/// assert_eq!((stored.variant, stored.mem_cost, stored.time_cost), (Variant::Argon2i, 4096, 3));
/// assert_eq!((stored.lanes, stored.salt_length, stored.hash_length), (1, 8, 32));
/// # Ok::<(), argon2::Error>(())
/// ```
pub fn read(encoded: &str) -> Result<Stored> {
    let (number, stored) = ffi::read(encoded);
    require_done(number)?;
    let settings = stored.settings;
    Ok(Stored {
        hash_length: settings.hash_length,
        lanes: settings.lanes,
        mem_cost: settings.mem_cost,
        salt_length: stored.salt_length,
        time_cost: settings.time_cost,
        variant: Variant::from_u32(settings.variant)?,
        version: Version::from_u32(settings.version)?,
    })
}
