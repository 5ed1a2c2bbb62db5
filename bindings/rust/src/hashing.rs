use crate::ffi;
use crate::{Config, Result, Run, Variant};

/// The length in bytes of an encoded hash.
///
/// # Examples
///
/// ```
/// use proved_argon2::{self as argon2, Variant};
///
/// assert_eq!(argon2::encoded_len(Variant::Argon2i, 4096, 10, 10, 8, 32), 86);
/// ```
#[must_use]
pub fn encoded_len(
    variant: Variant,
    mem_cost: u32,
    time_cost: u32,
    parallelism: u32,
    salt_len: u32,
    hash_len: u32,
) -> u64 {
    let (hash_length, lanes) = (hash_len, parallelism);
    let config = Config { hash_length, lanes, mem_cost, time_cost, variant, ..Config::default() };
    ffi::encoded_len(&config, salt_len)
}

/// Hashes a password to an encoded hash (PHC string), which contains the settings, the salt and the
/// tag.
///
/// Use a new salt of 16 random bytes for each password, or call [`hash_password_with`], which makes one.
///
/// # Errors
///
/// The first error of the settings or the inputs' lengths, or [`Error::OutOfMemory`](crate::Error::OutOfMemory).
///
/// # Examples
///
/// ```
/// use proved_argon2::{self as argon2, Config};
///
/// let text = argon2::hash_encoded(b"password", b"somesalt", &Config::default())?;
/// assert!(text.starts_with("$argon2id$v=19$m=19456,t=2,p=1$c29tZXNhbHQ$"));
/// # Ok::<(), argon2::Error>(())
/// ```
pub fn hash_encoded(pwd: &[u8], salt: &[u8], config: &Config<'_>) -> Result<String> {
    Run::new().hash_encoded(pwd, salt, config)
}

/// Hashes a password to a raw hash (tag) of `config.hash_length` bytes.
///
/// # Errors
///
/// The first error of the settings or the inputs' lengths, or [`Error::OutOfMemory`](crate::Error::OutOfMemory).
///
/// # Examples
///
/// ```
/// use proved_argon2::{self as argon2, Config, ThreadMode, Variant};
///
/// // Four lanes, by four threads.
/// let config = Config {
///     variant: Variant::Argon2d,
///     lanes: 4,
///     thread_mode: ThreadMode::Parallel,
///     ..Config::default()
/// };
/// assert_eq!(argon2::hash_raw(b"password", b"somesalt", &config)?.len(), 32);
/// # Ok::<(), argon2::Error>(())
/// ```
pub fn hash_raw(pwd: &[u8], salt: &[u8], config: &Config<'_>) -> Result<Vec<u8>> {
    Run::new().hash_raw(pwd, salt, config)
}

/// Hashes a password to an encoded hash (PHC string) with the default settings and a new salt of 16
/// random bytes from the system.
///
/// # Errors
///
/// As [`hash_password_with`].
///
/// # Examples
///
/// ```
/// use proved_argon2 as argon2;
///
/// let text = argon2::hash_password(b"correct horse")?;
/// assert!(argon2::verify_password(&text, b"correct horse")?);
/// assert!(!argon2::verify_password(&text, b"wrong horse")?);
/// # Ok::<(), Box<dyn std::error::Error>>(())
/// ```
pub fn hash_password(pwd: &[u8]) -> Result<String> {
    hash_password_with(pwd, &Config::default())
}

/// Hashes a password as [`hash_password`] does, with these settings, this secret and this associated
/// data.
///
/// # Errors
///
/// [`Error::NoRandomBytes`](crate::Error::NoRandomBytes); otherwise as [`hash_encoded`].
///
/// # Examples
///
/// ```
/// use proved_argon2::{self as argon2, Config};
///
/// let config = Config { secret: b"pepper", ..Config::owasp1() };
/// let text = argon2::hash_password_with(b"correct horse", &config)?;
/// assert!(argon2::verify_encoded_ext(&text, b"correct horse", b"pepper", &[])?);
/// # Ok::<(), argon2::Error>(())
/// ```
pub fn hash_password_with(pwd: &[u8], config: &Config<'_>) -> Result<String> {
    Run::new().hash_password_with(pwd, config)
}

#[cfg(test)]
mod tests {
    use crate::{hash_password, hash_password_with, needs_rehash, read, verify_password, Config, Unverified};

    #[test]
    fn a_hash_has_the_default_settings_and_a_salt_of_its_own() {
        let texts = [hash_password(b"password").unwrap(), hash_password(b"password").unwrap()];
        assert_ne!(texts[0], texts[1]);
        for text in &texts {
            assert_eq!(needs_rehash(text, &Config::default()), Ok(false));
            assert_eq!(read(text).unwrap().salt_length, 16);
            assert_eq!(verify_password(text, b"password"), Ok(true));
            assert_eq!(verify_password(text, b"Password"), Ok(false));
        }
        let costly = Config { time_cost: 1000, mem_cost: 8, ..Config::default() };
        let text = hash_password_with(b"password", &costly).unwrap();
        assert_eq!(verify_password(&text, b"password"), Err(Unverified::TooCostly));
    }
}
