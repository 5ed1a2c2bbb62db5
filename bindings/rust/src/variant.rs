use crate::{Error, Result};
use std::fmt;

const VARIANTS: [Variant; 3] = [Variant::Argon2d, Variant::Argon2i, Variant::Argon2id];
const VERSIONS: [Version; 2] = [Version::Version10, Version::Version13];

/// The variants of Argon2 (RFC 9106, 1). They differ in how a block chooses the earlier block that it refers to.
#[derive(Clone, Copy, Debug, Default, Eq, PartialEq, PartialOrd, Ord)]
pub enum Variant {
    /// Memory accesses depend on the contents of blocks, and so on the password.
    Argon2d = 0,

    /// Memory accesses depend only on the block's position, and say nothing about the password.
    #[default]
    Argon2i = 1,

    /// Memory accesses depend on the position in the first half of the first pass, and then on the contents. Choose
    /// this variant.
    Argon2id = 2,
}

impl Variant {
    /// The name as in an encoded hash: `argon2d`, `argon2i` or `argon2id`.
    #[must_use]
    pub fn as_lowercase_str(&self) -> &'static str {
        match self {
            Variant::Argon2d => "argon2d",
            Variant::Argon2i => "argon2i",
            Variant::Argon2id => "argon2id",
        }
    }

    /// The name with a capital: `Argon2d`, `Argon2i` or `Argon2id`.
    #[must_use]
    pub fn as_uppercase_str(&self) -> &'static str {
        match self {
            Variant::Argon2d => "Argon2d",
            Variant::Argon2i => "Argon2i",
            Variant::Argon2id => "Argon2id",
        }
    }

    /// The number: 0, 1 or 2.
    #[must_use]
    pub fn as_u32(&self) -> u32 {
        *self as u32
    }

    /// The number: 0, 1 or 2.
    #[must_use]
    pub fn as_u64(&self) -> u64 {
        *self as u64
    }

    /// The variant of a name, in lower case or with a capital.
    ///
    /// # Errors
    ///
    /// [`Error::DecodingFail`] for any other string.
    #[allow(clippy::should_implement_trait)]
    pub fn from_str(name: &str) -> Result<Variant> {
        let has_name = |variant: &Variant| [variant.as_lowercase_str(), variant.as_uppercase_str()].contains(&name);
        VARIANTS.into_iter().find(has_name).ok_or(Error::DecodingFail)
    }

    /// The variant of a number.
    ///
    /// # Errors
    ///
    /// [`Error::IncorrectType`] above 2.
    pub fn from_u32(number: u32) -> Result<Variant> {
        VARIANTS.into_iter().find(|variant| variant.as_u32() == number).ok_or(Error::IncorrectType)
    }
}

impl fmt::Display for Variant {
    fn fmt(&self, f: &mut fmt::Formatter<'_>) -> fmt::Result {
        f.write_str(self.as_lowercase_str())
    }
}

/// The versions of Argon2.
#[derive(Clone, Copy, Debug, Default, Eq, PartialEq, PartialOrd, Ord)]
pub enum Version {
    /// 0x10: later passes overwrite the blocks.
    Version10 = 0x10,

    /// 0x13, the version of RFC 9106. Choose this version.
    #[default]
    Version13 = 0x13,
}

/// The names in RustCrypto's `argon2`.
#[cfg(feature = "password-hash")]
#[allow(non_upper_case_globals)]
impl Version {
    /// [`Version::Version10`].
    pub const V0x10: Version = Version::Version10;

    /// [`Version::Version13`].
    pub const V0x13: Version = Version::Version13;
}

impl Version {
    /// The number: 16 or 19.
    #[must_use]
    pub fn as_u32(&self) -> u32 {
        *self as u32
    }

    /// The version of `16` or `19`.
    ///
    /// # Errors
    ///
    /// [`Error::DecodingFail`] for any other string.
    #[allow(clippy::should_implement_trait)]
    pub fn from_str(number: &str) -> Result<Version> {
        VERSIONS.into_iter().find(|version| version.to_string() == number).ok_or(Error::DecodingFail)
    }

    /// The version of a number.
    ///
    /// # Errors
    ///
    /// [`Error::IncorrectVersion`] if it is neither 16 nor 19.
    pub fn from_u32(number: u32) -> Result<Version> {
        VERSIONS.into_iter().find(|version| version.as_u32() == number).ok_or(Error::IncorrectVersion)
    }
}

impl fmt::Display for Version {
    fn fmt(&self, f: &mut fmt::Formatter<'_>) -> fmt::Result {
        write!(f, "{}", self.as_u32())
    }
}
