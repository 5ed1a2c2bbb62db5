use crate::{Variant, Version};
use std::fmt;

/// The settings of a hash.
///
/// `Debug` shows all fields except the secret.
///
/// # Examples
///
/// ```
/// use proved_argon2::{Config, ThreadMode, Variant, Version};
///
/// let config = Config::default();
/// assert_eq!(config.variant, Variant::Argon2id);
/// assert_eq!(config.version, Version::Version13);
/// assert_eq!(config.mem_cost, 19 * 1024);
/// assert_eq!(config.time_cost, 2);
/// assert_eq!(config.lanes, 1);
/// assert_eq!(config.hash_length, 32);
/// assert_eq!(config.thread_mode, ThreadMode::Sequential);
/// assert!(config.secret.is_empty() && config.ad.is_empty());
/// ```
#[derive(Clone, Copy, Eq, PartialEq)]
pub struct Config<'a> {
    /// The associated data.
    pub ad: &'a [u8],

    /// The length of the hash in bytes, at least 4.
    pub hash_length: u32,

    /// The number of lanes (the degree of parallelism), from 1 to 2^24 - 1. The tag depends on it.
    pub lanes: u32,

    /// The memory in KiB, at least 8 for each lane.
    pub mem_cost: u32,

    /// The secret, also called key or pepper.
    pub secret: &'a [u8],

    /// How many threads compute the lanes. The tag does not depend on it.
    pub thread_mode: ThreadMode,

    /// The passes over the memory, at least 1.
    pub time_cost: u32,

    /// The variant.
    pub variant: Variant,

    /// The version.
    pub version: Version,
}

/// How many threads compute the lanes of a hash. The tag does not depend on it.
#[derive(Clone, Copy, Debug, Default, Eq, PartialEq)]
pub enum ThreadMode {
    /// The caller's thread computes all lanes.
    #[default]
    Sequential,

    /// One thread for each lane, counting the caller's.
    Parallel,

    /// At most this many threads, counting the caller's, and no more than there are lanes. With 0 or 1 the caller's
    /// thread computes all lanes.
    AtMost(u32),
}

impl ThreadMode {
    /// The mode for this many threads: [`ThreadMode::Parallel`] if there are more than 1.
    #[must_use]
    pub fn from_threads(threads: u32) -> ThreadMode {
        if threads > 1 {
            ThreadMode::Parallel
        } else {
            ThreadMode::Sequential
        }
    }
}

/// Presets have one lane. RFC 9106 recommends four for its two presets: set `lanes`. The page `docs/USE.md` lists the
/// memory and the passes of each.
impl<'a> Config<'a> {
    /// The defaults of the original C program, for Argon2i.
    #[must_use]
    pub fn original() -> Config<'a> {
        Config::preset(Variant::Argon2i, 4096, 3)
    }

    /// OWASP's first recommendation.
    #[must_use]
    pub fn owasp1() -> Config<'a> {
        Config::preset(Variant::Argon2id, 47104, 1)
    }

    /// OWASP's second recommendation.
    #[must_use]
    pub fn owasp2() -> Config<'a> {
        Config::preset(Variant::Argon2id, 19456, 2)
    }

    /// OWASP's third recommendation.
    #[must_use]
    pub fn owasp3() -> Config<'a> {
        Config::preset(Variant::Argon2id, 12288, 3)
    }

    /// OWASP's fourth recommendation.
    #[must_use]
    pub fn owasp4() -> Config<'a> {
        Config::preset(Variant::Argon2id, 9216, 4)
    }

    /// OWASP's fifth recommendation.
    #[must_use]
    pub fn owasp5() -> Config<'a> {
        Config::preset(Variant::Argon2id, 7168, 5)
    }

    /// RFC 9106's first recommendation (section 4).
    #[must_use]
    pub fn rfc9106() -> Config<'a> {
        Config::preset(Variant::Argon2id, 2097152, 1)
    }

    /// RFC 9106's recommendation for little memory (section 4).
    #[must_use]
    pub fn rfc9106_low_mem() -> Config<'a> {
        Config::preset(Variant::Argon2id, 65536, 3)
    }

    /// Whether the caller's thread computes all lanes.
    #[must_use]
    pub fn uses_sequential(&self) -> bool {
        self.workers() == 1
    }

    /// How many threads compute the lanes, counting the caller's.
    #[must_use]
    pub fn workers(&self) -> u32 {
        match self.thread_mode {
            ThreadMode::Sequential | ThreadMode::AtMost(0 | 1) => 1,
            ThreadMode::Parallel => self.lanes,
            ThreadMode::AtMost(most) => self.lanes.min(most),
        }
    }

    /// Settings with one lane and a hash of 32 bytes.
    fn preset(variant: Variant, mem_cost: u32, time_cost: u32) -> Config<'a> {
        Config {
            ad: &[],
            hash_length: 32,
            lanes: 1,
            mem_cost,
            secret: &[],
            thread_mode: ThreadMode::Sequential,
            time_cost,
            variant,
            version: Version::Version13,
        }
    }
}

impl fmt::Debug for Config<'_> {
    fn fmt(&self, f: &mut fmt::Formatter<'_>) -> fmt::Result {
        let Config { ad, hash_length, lanes, mem_cost, secret: _, thread_mode, time_cost, variant, version } = self;
        f.debug_struct("Config")
            .field("ad", ad)
            .field("hash_length", hash_length)
            .field("lanes", lanes)
            .field("mem_cost", mem_cost)
            .field("secret", &format_args!(".."))
            .field("thread_mode", thread_mode)
            .field("time_cost", time_cost)
            .field("variant", variant)
            .field("version", version)
            .finish()
    }
}

impl Default for Config<'_> {
    /// [`Config::owasp2`].
    fn default() -> Self {
        Config::owasp2()
    }
}
