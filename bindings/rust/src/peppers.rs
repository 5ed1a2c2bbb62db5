use crate::{Config, Error, Result, Run, Unverified};
use std::{fmt, result};

/// An ID, which the service stores beside each encoded hash, and its key.
type Key<'a> = (&'a str, &'a [u8]);

/// Peppers: secret keys, each with an ID. The service stores the ID beside the encoded hash, which does not contain the
/// key. Whoever steals the hashes without the keys cannot test passwords.
///
/// To change the pepper, put a new key first and keep the old ones. [`Peppers::verify_and_update`] then renews each
/// hash that was made with an old key, at its user's next login. Once no hash has the ID of an old key, leave that key
/// out.
///
/// A hash with the ID `None`, which means no pepper, is rejected: otherwise whoever can write to the store could add a
/// hash that needs no key. If your store has such hashes, [accept them](Peppers::accept_unpeppered) until all are
/// renewed.
///
/// Each call needs a [`Run`]: `&mut Run::new()`, or that of a [`Place`](crate::Place).
///
/// # Examples
///
/// ```
/// use proved_argon2::{Config, Error, Peppers, Run, Unverified};
///
/// let old = Peppers::new(&[("2025", b"old key")], Config::owasp5())?;
/// let (key_id, stored) = old.hash(&mut Run::new(), b"correct horse")?;
///
/// let both = Peppers::new(&[("2026", b"new key"), ("2025", b"old key")], Config::owasp5())?;
/// let (is_match, update) = both.verify_and_update(&mut Run::new(), Some(key_id), &stored, b"correct horse")?;
/// let (key_id, stored) = update.unwrap(); // to store in place of the old ones
/// assert!(is_match && key_id == "2026");
///
/// let answer = both.verify_and_update(&mut Run::new(), None, &stored, b"correct horse");
/// assert_eq!(answer, Err(Unverified::Refused(Error::UnknownPepper)));
/// # Ok::<(), Unverified>(())
/// ```
#[derive(Clone, Copy)]
pub struct Peppers<'a> {
    keys: &'a [Key<'a>],
    config: Config<'a>,
    accepts_unpeppered: bool,
}

impl<'a> Peppers<'a> {
    /// Peppers of these IDs and keys, the newest first. New hashes are made with the newest key, and with the settings
    /// and the associated data of `config`, whose secret has no effect.
    ///
    /// # Errors
    ///
    /// [`Error::InvalidPeppers`] if there is no key, a key is empty, or two have the same ID.
    pub fn new(keys: &'a [Key<'a>], config: Config<'a>) -> Result<Peppers<'a>> {
        let is_repeated = |(at, key): (usize, &Key<'_>)| keys[..at].iter().any(|other| other.0 == key.0);
        if keys.is_empty() || keys.iter().any(|key| key.1.is_empty()) || keys.iter().enumerate().any(is_repeated) {
            return Err(Error::InvalidPeppers);
        }
        Ok(Peppers { keys, config, accepts_unpeppered: false })
    }

    /// The same peppers, which also verify hashes without a pepper, whose ID is `None`, and renew them with the newest
    /// key. Use it only while you move such hashes: whoever can write to the store can add a hash that needs no key.
    #[must_use]
    pub fn accept_unpeppered(self) -> Peppers<'a> {
        Peppers { accepts_unpeppered: true, ..self }
    }

    /// Hashes a password with the newest key. The service stores the ID and the encoded hash.
    ///
    /// # Errors
    ///
    /// As [`hash_password_with`](crate::hash_password_with), and [`Error::Stopped`].
    pub fn hash(&self, run: &mut Run<'_>, pwd: &[u8]) -> Result<(&'a str, String)> {
        Ok((self.newest().0, run.hash_password_with(pwd, &self.with_key(self.newest().1))?))
    }

    /// As [`verify_and_update`](crate::verify_and_update), with the key that has this ID. If the password matches, and
    /// the hash has another key than the newest or other settings, the second value is the ID and the encoded hash to
    /// store in place of the old ones.
    ///
    /// # Errors
    ///
    /// The same errors, [`Error::Stopped`], and [`Error::UnknownPepper`] if no key has this ID, or if it is `None` and
    /// unpeppered hashes are not accepted.
    #[allow(clippy::type_complexity)]
    pub fn verify_and_update(
        &self,
        run: &mut Run<'_>,
        key_id: Option<&str>,
        encoded: &str,
        pwd: &[u8],
    ) -> result::Result<(bool, Option<(&'a str, String)>), Unverified> {
        let (newest, of_hash) = (self.newest(), self.with_key(self.key(key_id)?));
        let new_key: &[u8] = if key_id == Some(newest.0) { &[] } else { newest.1 };
        let (is_match, update) = run.verify_and_renew(encoded, pwd, &of_hash, new_key)?;
        Ok((is_match, update.map(|update| (newest.0, update))))
    }

    /// As [`verify_unknown`](crate::verify_unknown), with the settings of new hashes.
    ///
    /// # Errors
    ///
    /// The same, and [`Error::Stopped`].
    pub fn verify_unknown(&self, run: &mut Run<'_>, pwd: &[u8]) -> Result<bool> {
        run.verify_unknown(pwd, &self.with_key(self.newest().1))
    }

    fn newest(&self) -> Key<'a> {
        self.keys[0] // (`new` rejects an empty slice)
    }

    /// The key with an ID. Without one the key is empty, as for a hash without a pepper.
    fn key(&self, key_id: Option<&str>) -> Result<&'a [u8]> {
        match key_id {
            None if self.accepts_unpeppered => Ok(&[]),
            None => Err(Error::UnknownPepper),
            Some(key_id) => self.keys.iter().find(|key| key.0 == key_id).map(|key| key.1).ok_or(Error::UnknownPepper),
        }
    }

    fn with_key(&self, secret: &'a [u8]) -> Config<'a> {
        Config { secret, ..self.config }
    }
}

/// Shows the IDs and the settings, and no key.
impl fmt::Debug for Peppers<'_> {
    fn fmt(&self, f: &mut fmt::Formatter<'_>) -> fmt::Result {
        let ids: Vec<_> = self.keys.iter().map(|key| key.0).collect();
        f.debug_struct("Peppers")
            .field("ids", &ids)
            .field("config", &self.config)
            .field("accepts_unpeppered", &self.accepts_unpeppered)
            .finish()
    }
}

#[cfg(test)]
mod tests {
    use super::Peppers;
    use crate::{hash_password_with, verify_encoded_ext, Config, Error, Memory, Run, Unverified};
    use std::ops::ControlFlow;

    const KEYS: [(&str, &[u8]); 2] = [("2026", b"new"), ("2025", b"old")];
    const UNKNOWN: Unverified = Unverified::Refused(Error::UnknownPepper);

    fn small() -> Config<'static> {
        Config { mem_cost: 64, time_cost: 1, ..Config::default() }
    }

    fn hash_with(secret: &[u8]) -> String {
        hash_password_with(b"password", &Config { secret, ..small() }).unwrap()
    }

    #[test]
    fn a_login_renews_a_hash_with_an_old_key() {
        let (both, stored) = (Peppers::new(&KEYS, small()).unwrap(), hash_with(b"old"));
        let mut run = Run::new();
        assert_eq!(both.verify_and_update(&mut run, Some("2025"), &stored, b"Password"), Ok((false, None)));
        let (is_match, update) = both.verify_and_update(&mut run, Some("2025"), &stored, b"password").unwrap();
        let (key_id, new) = update.unwrap();
        assert!(is_match && key_id == "2026");
        assert_eq!(verify_encoded_ext(&new, b"password", b"new", &[]), Ok(true));
        assert_eq!(both.verify_and_update(&mut run, Some("2026"), &new, b"password"), Ok((true, None)));
    }

    #[test]
    fn a_hash_with_an_old_id_is_renewed_even_if_both_ids_have_the_same_key() {
        let same = Peppers::new(&[("2026", b"key"), ("2025", b"key")], small()).unwrap();
        let (_, update) =
            same.verify_and_update(&mut Run::new(), Some("2025"), &hash_with(b"key"), b"password").unwrap();
        assert_eq!(update.unwrap().0, "2026");
    }

    #[test]
    fn a_new_hash_has_the_newest_key() {
        let both = Peppers::new(&KEYS, Config { secret: b"no effect", ..small() }).unwrap();
        let (key_id, stored) = both.hash(&mut Run::new(), b"password").unwrap();
        assert_eq!((key_id, verify_encoded_ext(&stored, b"password", b"new", &[])), ("2026", Ok(true)));
    }

    #[test]
    fn an_id_whose_key_was_removed_is_an_error_of_its_own() {
        let newest = Peppers::new(&KEYS[..1], small()).unwrap();
        let answer = newest.verify_and_update(&mut Run::new(), Some("2025"), &hash_with(b"old"), b"password");
        assert_eq!(answer, Err(UNKNOWN));
    }

    #[test]
    fn a_hash_without_a_pepper_is_rejected_unless_the_service_accepts_it() {
        let (peppers, forged) = (Peppers::new(&KEYS, small()).unwrap(), hash_with(b""));
        let mut run = Run::new();
        assert_eq!(peppers.verify_and_update(&mut run, None, &forged, b"password"), Err(UNKNOWN));
        let migrating = peppers.accept_unpeppered();
        assert_eq!(migrating.verify_and_update(&mut run, None, &forged, b"Password"), Ok((false, None)));
        let (is_match, update) = migrating.verify_and_update(&mut run, None, &forged, b"password").unwrap();
        let (key_id, new) = update.unwrap();
        assert!(is_match && key_id == "2026");
        assert_eq!(verify_encoded_ext(&new, b"password", b"new", &[]), Ok(true));
    }

    #[test]
    fn an_empty_list_an_empty_key_and_a_repeated_id_are_rejected() {
        let lists: [&[(&str, &[u8])]; 4] =
            [&[], &[("a", b"")], &[("a", b"key"), ("b", b"")], &[("a", b"key"), ("b", b"two"), ("a", b"three")]];
        for keys in lists {
            assert_eq!(Peppers::new(keys, small()).err(), Some(Error::InvalidPeppers), "{keys:?}");
        }
    }

    #[test]
    fn each_call_uses_the_buffer_and_the_callback_of_its_run() {
        let (peppers, stored) = (Peppers::new(&KEYS, small()).unwrap(), hash_with(b"new"));
        let mut memory = Memory::new();
        let mut run = Run::new().over(&mut memory).with_progress(|_, _| ControlFlow::Break(()));
        assert_eq!(peppers.hash(&mut run, b"password"), Err(Error::Stopped));
        let answer = peppers.verify_and_update(&mut run, Some("2026"), &stored, b"password");
        assert_eq!(answer, Err(Unverified::Refused(Error::Stopped)));
        assert_eq!(peppers.verify_unknown(&mut run, b"password"), Err(Error::Stopped));
        drop(run);
        assert_eq!(memory.size(), 64 << 10);
        assert_eq!(peppers.verify_unknown(&mut Run::new(), b"password"), Ok(false));
    }

    #[test]
    fn debug_shows_no_key() {
        let shown = format!("{:?}", Peppers::new(&[("2026", b"hidden")], small()).unwrap());
        assert!(shown.contains("2026") && !shown.contains("hidden") && !shown.contains("104, 105"), "{shown}");
    }
}
