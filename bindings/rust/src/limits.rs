use crate::{ffi, Config, Error};
use std::{error, fmt};

/// The highest memory, passes and lanes that an encoded hash may name, and the highest product of
/// memory and passes, for [`verify_encoded_within`](crate::verify_encoded_within).
#[derive(Clone, Copy, Debug, Eq, PartialEq)]
#[repr(C)] // `proved_argon2_limits` of the header
pub struct Limits {
    /// The memory in KiB.
    pub mem_cost: u32,

    /// The passes over the memory.
    pub time_cost: u32,

    /// The lanes.
    pub lanes: u32,

    /// The memory in KiB times the passes, which the time is proportional to.
    pub work: u64,
}

impl Limits {
    /// The default limits, raised where these settings are higher, so that a hash with these settings is within them.
    ///
    /// # Examples
    ///
    /// ```
    /// use proved_argon2::{self as argon2, Config, Limits};
    ///
    /// let config = Config { time_cost: 100, mem_cost: 1024, ..Config::default() };
    /// let text = argon2::hash_encoded(b"password", b"somesalt", &config)?;
    /// assert!(argon2::verify_encoded_within(&text, b"password", &[], &[], &Limits::at_least(&config))?);
    /// # Ok::<(), argon2::Unverified>(())
    /// ```
    #[must_use]
    pub fn at_least(config: &Config<'_>) -> Limits {
        ffi::limits_for(config)
    }

    /// Whether settings are within the limits.
    #[cfg(feature = "password-hash")]
    pub(crate) fn allow(self, config: &Config<'_>) -> bool {
        let is_higher =
            config.mem_cost > self.mem_cost || config.time_cost > self.time_cost || config.lanes > self.lanes;
        !is_higher && u64::from(config.mem_cost) * u64::from(config.time_cost) <= self.work
    }
}

impl Default for Limits {
    /// The limits of the library, which the page `docs/USE.md` lists. The recommendations of RFC 9106, OWASP, libsodium
    /// and Django are within.
    fn default() -> Limits {
        ffi::default_limits()
    }
}

/// Why an encoded hash was not verified within limits.
#[derive(Clone, Debug, PartialEq)]
pub enum Unverified {
    /// The encoded hash exceeds a limit.
    TooCostly,

    /// The call without limits would return this error too.
    Refused(Error),
}

impl fmt::Display for Unverified {
    fn fmt(&self, f: &mut fmt::Formatter<'_>) -> fmt::Result {
        match self {
            Unverified::TooCostly => f.write_str("The encoded hash is above the limits"),
            Unverified::Refused(error) => error.fmt(f),
        }
    }
}

impl error::Error for Unverified {
    fn source(&self) -> Option<&(dyn error::Error + 'static)> {
        match self {
            Unverified::TooCostly => None,
            Unverified::Refused(error) => Some(error),
        }
    }
}

/// So that `?` works for calls with limits and calls without, in one function.
impl From<Error> for Unverified {
    fn from(error: Error) -> Unverified {
        Unverified::Refused(error)
    }
}
