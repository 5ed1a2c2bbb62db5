use crate::ffi::{self, Settings, NEEDS_REHASH, OK, SALT_SIZE};
use crate::run::{text_of, verdict, within_limits, zeros};
use crate::{Config, Result, Run, Unverified};
use std::result;

/// Verifies a password at a login, and hashes it anew if the stored hash is outdated.
///
/// It verifies as [`verify_encoded_within`](crate::verify_encoded_within) does, with the secret and the associated data
/// of `config`. If the password matches, and the stored hash was made with other settings than `config` or has a salt
/// of another length than 16 bytes, the second value is the new encoded hash, which the service stores in place of the
/// old one.
///
/// The limits are the default ones, raised to the settings. If the new hash cannot be computed, the password matches
/// all the same, and the second value is `None`. The new hash too is computed by a thread for each lane.
///
/// # Errors
///
/// As [`verify_encoded_within`](crate::verify_encoded_within).
///
/// # Examples
///
/// ```
/// use proved_argon2::{self as argon2, Config};
///
/// let stored = argon2::hash_password_with(b"correct horse", &Config::owasp5())?;
/// let (is_match, new) = argon2::verify_and_update(&stored, b"correct horse", &Config::owasp2())?;
/// assert!(is_match && !argon2::needs_rehash(&new.unwrap(), &Config::owasp2())?);
/// # Ok::<(), argon2::Unverified>(())
/// ```
pub fn verify_and_update(
    encoded: &str,
    pwd: &[u8],
    config: &Config<'_>,
) -> result::Result<(bool, Option<String>), Unverified> {
    Run::new().verify_and_update(encoded, pwd, config)
}

/// For a login whose user does not exist: takes as long as verifying a stored hash with these settings, and never
/// matches. Without it an attacker can measure which users exist.
///
/// # Errors
///
/// As [`hash_raw`](crate::hash_raw), except that associated data have no effect. Otherwise it returns `Ok(false)`.
///
/// # Examples
///
/// ```
/// use proved_argon2::{self as argon2, Config};
///
/// # let (stored, pwd, config) = (None::<String>, b"correct horse", Config::default());
/// let is_match = match stored {
///     Some(stored) => argon2::verify_password(&stored, pwd)?,
///     None => argon2::verify_unknown(pwd, &config)?,
/// };
/// # assert!(!is_match);
/// # Ok::<(), argon2::Unverified>(())
/// ```
pub fn verify_unknown(pwd: &[u8], config: &Config<'_>) -> Result<bool> {
    Run::new().verify_unknown(pwd, config)
}

impl Run<'_> {
    /// As [`verify_and_update`]. If the progress callback stops the new hash, the password matches all the same.
    ///
    /// # Errors
    ///
    /// The same, and [`Unverified::Refused`] with [`Error::Stopped`](crate::Error::Stopped).
    pub fn verify_and_update(
        &mut self,
        encoded: &str,
        pwd: &[u8],
        config: &Config<'_>,
    ) -> result::Result<(bool, Option<String>), Unverified> {
        self.verify_and_renew(encoded, pwd, config, &[])
    }

    /// As [`verify_unknown`].
    ///
    /// # Errors
    ///
    /// The same, and [`Error::Stopped`](crate::Error::Stopped).
    pub fn verify_unknown(&mut self, pwd: &[u8], config: &Config<'_>) -> Result<bool> {
        let number = self.call(|| Settings::of(config), |extras| ffi::verify_unknown(pwd, config, extras));
        verdict(number).map(|_| false)
    }

    /// Verifies with the secret of `config`, and always hashes anew if there is a new secret. (Without memory for the
    /// new hash, the library makes none. It makes both in the reusable buffer, which therefore first grows.)
    pub(crate) fn verify_and_renew(
        &mut self,
        encoded: &str,
        pwd: &[u8],
        config: &Config<'_>,
        new_secret: &[u8],
    ) -> result::Result<(bool, Option<String>), Unverified> {
        let mut text = zeros(ffi::encoded_len(config, SALT_SIZE as u32) + 1).unwrap_or_default();
        self.reserve(&Settings::of(config));
        let settings = || ffi::read(encoded).1.settings;
        let number = self.call(settings, |extras| ffi::renew(encoded, pwd, config, new_secret, extras, &mut text));
        let is_renewed = number == NEEDS_REHASH;
        let is_match = within_limits(if is_renewed { OK } else { number })?;
        Ok((is_match, is_renewed.then(|| text_of(text))))
    }
}

#[cfg(test)]
mod tests {
    use super::{verify_and_update, verify_unknown};
    use crate::{hash_encoded, hash_password_with, needs_rehash, read, verify_encoded_ext};
    use crate::{Config, Error, Memory, Run, Unverified};
    use std::ops::ControlFlow;

    fn small() -> Config<'static> {
        Config { mem_cost: 64, time_cost: 1, ..Config::default() }
    }

    #[test]
    fn only_the_right_password_renews_a_hash_with_other_settings() {
        let other = Config { time_cost: 2, ..small() };
        let stored = hash_password_with(b"password", &other).unwrap();
        assert_eq!(verify_and_update(&stored, b"password", &other), Ok((true, None)));
        assert_eq!(verify_and_update(&stored, b"Password", &small()), Ok((false, None)));
        let (is_match, new) = verify_and_update(&stored, b"password", &small()).unwrap();
        assert!(is_match && needs_rehash(new.as_ref().unwrap(), &small()) == Ok(false));
        assert_eq!(verify_encoded_ext(&new.unwrap(), b"password", &[], &[]), Ok(true));
    }

    #[test]
    fn a_password_matches_only_with_the_secret_and_the_data_of_its_hash() {
        let own = Config { secret: b"pepper", ad: b"user 7", ..small() };
        let stored = hash_password_with(b"password", &own).unwrap();
        assert_eq!(verify_and_update(&stored, b"password", &own), Ok((true, None)));
        for other in [Config { secret: b"", ..own }, Config { ad: b"", ..own }, Config { ad: b"user 8", ..own }] {
            assert_eq!(verify_and_update(&stored, b"password", &other), Ok((false, None)));
        }
        let (_, new) = verify_and_update(&stored, b"password", &Config { time_cost: 2, ..own }).unwrap();
        assert_eq!(verify_encoded_ext(&new.unwrap(), b"password", b"pepper", b"user 7"), Ok(true));
    }

    #[test]
    fn a_password_matches_even_if_the_new_hash_fails() {
        let stored = hash_password_with(b"password", &small()).unwrap();
        let rejected = Config { time_cost: 0, ..small() };
        assert_eq!(verify_and_update(&stored, b"password", &rejected), Ok((true, None)));
        assert_eq!(verify_and_update("x", b"password", &small()), Err(Unverified::Refused(Error::DecodingFail)));
        let costly = stored.replace("m=64", "m=4294967295");
        assert_eq!(verify_and_update(&costly, b"password", &small()), Err(Unverified::TooCostly));
    }

    #[test]
    fn a_hash_with_a_salt_of_another_length_is_renewed() {
        let stored = hash_encoded(b"password", b"somesalt", &small()).unwrap();
        let (_, new) = verify_and_update(&stored, b"password", &small()).unwrap();
        assert_eq!(read(&new.unwrap()).unwrap().salt_length, 16);
    }

    #[test]
    fn a_reusable_buffer_grows_to_what_the_new_hash_needs() {
        let (stored, larger) =
            (hash_password_with(b"password", &small()).unwrap(), Config { mem_cost: 128, ..small() });
        let mut memory = Memory::new();
        let answer = Run::new().over(&mut memory).verify_and_update(&stored, b"password", &larger);
        assert!(matches!(answer, Ok((true, Some(_)))) && memory.size() == 128 << 10);
    }

    #[test]
    fn a_run_reports_the_progress_of_both_hashes_and_stops_either() {
        let stored = hash_password_with(b"password", &Config { time_cost: 2, ..small() }).unwrap();
        let by = |pwd: &[u8], most: u32| {
            let mut slices = 0;
            let progress = |_, _| {
                slices += 1;
                if slices < most {
                    ControlFlow::Continue(())
                } else {
                    ControlFlow::Break(())
                }
            };
            let answer = Run::new().with_progress(progress).verify_and_update(&stored, pwd, &small());
            (answer, slices)
        };
        let (answer, slices) = by(b"password", 100);
        assert!(matches!(answer, Ok((true, Some(_)))) && slices == 12);
        assert_eq!(by(b"Password", 100), (Ok((false, None)), 8));
        assert_eq!(by(b"password", 9), (Ok((true, None)), 9));
        assert_eq!(by(b"password", 8).0, Err(Unverified::Refused(Error::Stopped)));
    }

    #[test]
    fn an_unknown_user_never_matches_and_has_the_errors_of_a_hash() {
        let config = Config { secret: b"pepper", ad: b"user", ..small() };
        for pwd in [&b""[..], b"password"] {
            assert_eq!(verify_unknown(pwd, &config), Ok(false));
        }
        assert_eq!(verify_unknown(b"password", &Config { lanes: 0, ..config }), Err(Error::LanesTooFew));
        let mut run = Run::new().with_progress(|_, _| ControlFlow::Break(()));
        assert_eq!(run.verify_unknown(b"password", &config), Err(Error::Stopped));
    }
}
