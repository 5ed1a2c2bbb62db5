//! The traits of the crate `password-hash` 0.6, implemented with `proved-argon2`, for programs that were written for
//! RustCrypto's `argon2` 0.6.
//!
//! # Examples
//!
//! ```
//! use proved_argon2_password_hash as argon2; // the lines below are as for RustCrypto's crate
//! use argon2::password_hash::{phc::PasswordHash, PasswordHasher, PasswordVerifier};
//! use argon2::Argon2;
//!
//! let stored = Argon2::default().hash_password(b"password")?.to_string();
//! let hash = PasswordHash::new(&stored)?;
//! assert!(Argon2::default().verify_password(b"password", &hash).is_ok());
//! assert!(Argon2::default().verify_password(b"Password", &hash).is_err());
//! # Ok::<(), argon2::password_hash::Error>(())
//! ```
#![forbid(unsafe_code)]
#![warn(missing_docs)]

use password_hash::phc::{Output, Salt};
use password_hash::{Error, Result};
use proved_argon2::{hash_encoded, verify_encoded_within, Error as Refusal, Limits, Unverified};

pub use password_hash::{self, phc::PasswordHash, PasswordHasher, PasswordVerifier};
pub use proved_argon2::{Config, ThreadMode, Variant, Version};

/// A hasher with settings, like the type of this name in RustCrypto's crate. By default the settings are
/// [`Config::default`].
///
/// It verifies stored hashes within [`Limits::at_least`] of those settings.
#[derive(Clone, Copy, Debug, Default)]
pub struct Argon2<'key> {
    config: Config<'key>,
}

/// A hasher with all of these settings, among them a secret (pepper), associated data and threads.
impl<'key> From<Config<'key>> for Argon2<'key> {
    fn from(config: Config<'key>) -> Argon2<'key> {
        Argon2 { config }
    }
}

/// The salt has 8 to 48 bytes and the hash 10 to 64. Other lengths are [`Error::SaltInvalid`] and
/// [`Error::OutputSize`].
impl PasswordHasher<PasswordHash> for Argon2<'_> {
    fn hash_password_with_salt(&self, password: &[u8], salt: &[u8]) -> Result<PasswordHash> {
        // (a length that the traits cannot represent is rejected before the hash is computed)
        Output::init_with(self.config.hash_length as usize, |_| Ok(()))?;
        Salt::new(salt)?;
        let text = hash_encoded(password, salt, &self.config).map_err(told)?;
        Ok(PasswordHash::new(&text)?)
    }
}

/// Verifies an encoded hash, which `proved-argon2` decodes and compares. A hash above the limits is [`Error::Crypto`],
/// another algorithm [`Error::Algorithm`], and a string that is not an encoded hash [`Error::EncodingInvalid`].
impl PasswordVerifier<str> for Argon2<'_> {
    fn verify_password(&self, password: &[u8], hash: &str) -> Result<()> {
        let name = hash.split('$').nth(1).ok_or(Error::EncodingInvalid)?;
        Variant::from_str(name).map_err(|_| Error::Algorithm)?;
        let Config { secret, ad, .. } = self.config;
        match verify_encoded_within(hash, password, secret, ad, &Limits::at_least(&self.config)) {
            Ok(true) => Ok(()),
            Ok(false) => Err(Error::PasswordInvalid),
            Err(Unverified::TooCostly) => Err(Error::Crypto),
            Err(Unverified::Refused(error)) => Err(told(error)),
        }
    }
}

/// Verifies the string of this hash.
impl PasswordVerifier<PasswordHash> for Argon2<'_> {
    fn verify_password(&self, password: &[u8], hash: &PasswordHash) -> Result<()> {
        self.verify_password(password, hash.to_string().as_str())
    }
}

/// The traits' error for an error of `proved-argon2`.
fn told(error: Refusal) -> Error {
    match error {
        Refusal::DecodingFail => Error::EncodingInvalid,
        Refusal::OutOfMemory => Error::OutOfMemory,
        Refusal::OutputTooShort | Refusal::OutputTooLong => Error::OutputSize,
        Refusal::PwdTooLong => Error::PasswordInvalid,
        Refusal::SaltTooShort | Refusal::SaltTooLong => Error::SaltInvalid,
        Refusal::MemoryTooLittle => Error::ParamInvalid { name: "m" },
        Refusal::TimeTooSmall => Error::ParamInvalid { name: "t" },
        Refusal::LanesTooFew | Refusal::LanesTooMany => Error::ParamInvalid { name: "p" },
        Refusal::AdTooLong | Refusal::SecretTooLong => Error::ParamsInvalid,
        _ => Error::Internal,
    }
}
