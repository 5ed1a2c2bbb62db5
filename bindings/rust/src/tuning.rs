use crate::ffi::{self, Settings, TOO_COSTLY};
use crate::run::require_done;
use crate::{Config, Result};
use std::time::Duration;

/// Settings that [`tune`] found.
#[derive(Clone, Copy, Debug, PartialEq)]
pub struct Tuning<'a> {
    /// The settings.
    pub config: Config<'a>,

    /// The time that a hash takes, the least of several.
    pub time: Duration,
}

/// Finds strong settings whose hash takes at most this long on this machine: the memory of `config`, halved
/// until it fits, and then as many passes as possible, within the default limits. Everything else is as in `config`.
///
/// It returns `None` if even the least settings for passwords (7 MiB and 5 passes, or as much work) take longer, or
/// `config` has less memory.
///
/// # Errors
///
/// As [`hash_raw`](crate::hash_raw).
///
/// # Examples
///
/// ```
/// use proved_argon2::{self as argon2, Config};
/// use std::time::Duration;
///
/// let most = Config { mem_cost: 65536, ..Config::default() };
/// let found = argon2::tune(Duration::from_secs(60), &most)?.expect("a minute is enough");
/// let stored = argon2::hash_password_with(b"correct horse", &found.config)?;
/// # assert!(argon2::verify_password(&stored, b"correct horse").unwrap() && found.config.time_cost > 1);
/// # Ok::<(), argon2::Error>(())
/// ```
pub fn tune<'a>(within: Duration, config: &Config<'a>) -> Result<Option<Tuning<'a>>> {
    let (number, found) = ffi::tune(config, u64::try_from(within.as_nanos()).unwrap_or(u64::MAX));
    if number == TOO_COSTLY {
        return Ok(None);
    }
    require_done(number)?;
    let Settings { mem_cost, time_cost, .. } = found.settings;
    let config = Config { mem_cost, time_cost, ..*config };
    Ok(Some(Tuning { config, time: Duration::from_nanos(found.nanoseconds) }))
}

#[cfg(test)]
mod tests {
    use super::tune;
    use crate::{Config, Error};
    use std::time::Duration;

    #[test]
    fn hashes_are_measured_on_this_machine() {
        let most = Config { mem_cost: 16384, secret: b"pepper", ..Config::default() };
        let found = tune(Duration::from_secs(60), &most).unwrap().unwrap();
        assert!(found.time > Duration::ZERO && found.config.time_cost >= 3);
        assert_eq!(found.config, Config { time_cost: found.config.time_cost, ..most });
        assert_eq!(tune(Duration::ZERO, &most), Ok(None));
        let rejected = Config { lanes: 0, ..most };
        assert_eq!(tune(Duration::from_secs(1), &rejected), Err(Error::LanesTooFew));
    }

    #[test]
    fn a_longer_time_than_fits_into_64_bits_of_nanoseconds_is_no_short_time() {
        let most = Config { mem_cost: 7168, ..Config::default() };
        assert!(tune(Duration::from_secs(1 << 62), &most).unwrap().is_some());
    }
}
