use crate::ffi::{self, Buffers, Extras, Progress, Settings, MISMATCH, OK, TOO_COSTLY};
use crate::{Config, Error, Limits, Memory, Result, Unverified};
use std::ops::ControlFlow;
use std::{fmt, result};

/// How calls run: in a reusable buffer, and with a progress callback, which can stop them.
///
/// Each call returns what the crate's call of the same name does ([`verify_encoded_ext`](crate::verify_encoded_ext) for
/// [`Run::verify_encoded`]). If the callback stops it, it returns [`Error::Stopped`]; calls with limits return that in
/// [`Unverified::Refused`].
///
/// # Examples
///
/// ```
/// use proved_argon2::{Config, Error, Memory, Run};
/// use std::ops::ControlFlow;
/// use std::time::{Duration, Instant};
///
/// let deadline = Instant::now() + Duration::from_millis(1);
/// let mut memory = Memory::new();
/// let mut run = Run::new().over(&mut memory).with_progress(|done, all| {
///     println!("{done} of {all} slices");
///     if Instant::now() < deadline { ControlFlow::Continue(()) } else { ControlFlow::Break(()) }
/// });
/// let endless = Config { time_cost: u32::MAX, ..Config::default() };
/// assert_eq!(run.hash_raw(b"password", b"somesalt", &endless), Err(Error::Stopped));
/// ```
#[derive(Default)]
pub struct Run<'a> {
    memory: Option<&'a mut Memory>,
    kept: Option<&'a Buffers>,
    progress: Option<Progress<'a>>,
}

/// A call that writes what it computes.
type Writing = fn(&[u8], &[u8], &Config<'_>, Extras<'_, '_>, &mut [u8]) -> u32;

#[allow(clippy::missing_errors_doc)] // `Run` documents the errors of all its calls
impl<'a> Run<'a> {
    /// A run whose calls allocate their own memory and report no progress.
    #[must_use]
    pub fn new() -> Run<'a> {
        Run::default()
    }

    /// The same calls, in a reusable buffer.
    #[must_use]
    pub fn over(self, memory: &'a mut Memory) -> Run<'a> {
        Run { memory: Some(memory), ..self }
    }

    /// A run whose calls compute in these buffers or, if all are used or too small, in memory of their own.
    pub(crate) fn with_kept(buffers: &'a Buffers) -> Run<'a> {
        Run { kept: Some(buffers), ..Run::default() }
    }

    /// The same calls, with a progress callback. A call invokes it in the caller's thread each time a slice is filled,
    /// four times in a pass, with the numbers of filled slices and of all slices.
    ///
    /// If the callback returns [`ControlFlow::Break`], the call clears its memory and returns [`Error::Stopped`]. If it
    /// panics, the call clears its memory too, and the panic goes on in the caller.
    #[must_use]
    pub fn with_progress(self, progress: impl FnMut(u64, u64) -> ControlFlow<()> + 'a) -> Run<'a> {
        Run { progress: Some(Progress::new(progress)), ..self }
    }

    /// As [`hash_raw`](crate::hash_raw).
    pub fn hash_raw(&mut self, pwd: &[u8], salt: &[u8], config: &Config<'_>) -> Result<Vec<u8>> {
        self.hash(pwd, salt, config, config.hash_length.into(), ffi::hash_raw)
    }

    /// As [`hash_encoded`](crate::hash_encoded).
    pub fn hash_encoded(&mut self, pwd: &[u8], salt: &[u8], config: &Config<'_>) -> Result<String> {
        let salt_len = u32::try_from(salt.len()).unwrap_or(u32::MAX); // (a longer salt is rejected)
        let size = ffi::encoded_len(config, salt_len) + 1;
        Ok(text_of(self.hash(pwd, salt, config, size, ffi::hash_encoded)?))
    }

    /// As [`verify_raw`](crate::verify_raw).
    pub fn verify_raw(&mut self, pwd: &[u8], salt: &[u8], hash: &[u8], config: &Config<'_>) -> Result<bool> {
        let settings = || Settings { hash_length: u32::MAX, ..Settings::of(config) };
        verdict(self.call(settings, |extras| ffi::verify_raw(pwd, salt, hash, config, extras)))
    }

    /// As [`verify_encoded_ext`](crate::verify_encoded_ext).
    pub fn verify_encoded(&mut self, encoded: &str, pwd: &[u8], secret: &[u8], ad: &[u8]) -> Result<bool> {
        verdict(self.verify(encoded, pwd, secret, ad, None))
    }

    /// As [`verify_encoded_within`](crate::verify_encoded_within).
    pub fn verify_encoded_within(
        &mut self,
        encoded: &str,
        pwd: &[u8],
        secret: &[u8],
        ad: &[u8],
        limits: &Limits,
    ) -> result::Result<bool, Unverified> {
        within_limits(self.verify(encoded, pwd, secret, ad, Some(limits)))
    }

    /// As [`verify_password`](crate::verify_password).
    pub fn verify_password(&mut self, encoded: &str, pwd: &[u8]) -> result::Result<bool, Unverified> {
        self.verify_encoded_within(encoded, pwd, &[], &[], &Limits::default())
    }

    /// As [`hash_password_with`](crate::hash_password_with).
    pub fn hash_password_with(&mut self, pwd: &[u8], config: &Config<'_>) -> Result<String> {
        self.hash_encoded(pwd, &ffi::new_salt().ok_or(Error::NoRandomBytes)?, config)
    }

    /// Makes a call that writes this many bytes, and returns them. The settings are checked before memory is allocated.
    fn hash(&mut self, pwd: &[u8], salt: &[u8], config: &Config<'_>, length: u64, call: Writing) -> Result<Vec<u8>> {
        require_done(ffi::check(pwd, salt, config))?;
        let mut out = zeros(length)?;
        require_done(self.call(|| Settings::of(config), |extras| call(pwd, salt, config, extras, &mut out)))?;
        Ok(out)
    }

    /// Writes a tag to `out`, whose length replaces `config.hash_length`. An error leaves `out` unchanged.
    #[cfg(feature = "password-hash")]
    pub(crate) fn hash_raw_into(&mut self, pwd: &[u8], salt: &[u8], config: &Config<'_>, out: &mut [u8]) -> Result<()> {
        let hash_length = u32::try_from(out.len()).map_err(|_| Error::OutputTooLong)?;
        let config = Config { hash_length, ..*config };
        require_done(self.call(|| Settings::of(&config), |extras| ffi::hash_raw(pwd, salt, &config, extras, out)))
    }

    /// Verifies with limits or without. Returns the library's number.
    fn verify(&mut self, encoded: &str, pwd: &[u8], secret: &[u8], ad: &[u8], limits: Option<&Limits>) -> u32 {
        let settings = || ffi::read(encoded).1.settings;
        self.call(settings, |extras| ffi::verify_encoded(encoded, pwd, secret, ad, limits, extras))
    }

    /// Lets the reusable buffer grow to what these settings need.
    pub(crate) fn reserve(&mut self, settings: &Settings) {
        if let Some(memory) = &mut self.memory {
            memory.grow(settings);
        }
    }

    /// Makes a call with the buffers and the callback, and returns its number. The settings are computed only if the
    /// reusable buffer is too small.
    pub(crate) fn call(
        &mut self,
        settings: impl FnOnce() -> Settings,
        mut call: impl FnMut(Extras<'_, 'a>) -> u32,
    ) -> u32 {
        let Run { memory, kept, progress } = self;
        let number = match memory {
            Some(memory) => memory.call(settings, |buffer| {
                call(Extras { buffer: Some(buffer), kept: None, progress: progress.as_mut() })
            }),
            None => call(Extras { buffer: None, kept: *kept, progress: progress.as_mut() }),
        };
        if let Some(progress) = progress {
            progress.resume_panic();
        }
        number
    }
}

impl fmt::Debug for Run<'_> {
    fn fmt(&self, f: &mut fmt::Formatter<'_>) -> fmt::Result {
        f.debug_struct("Run").field("memory", &self.memory).field("has_progress", &self.progress.is_some()).finish()
    }
}

/// An encoded hash, behind which the library wrote a zero.
pub(crate) fn text_of(mut text: Vec<u8>) -> String {
    text.pop();
    String::from_utf8(text).expect("an encoded hash is ASCII")
}

/// This many zeros, if the system grants memory for them.
pub(crate) fn zeros(length: u64) -> Result<Vec<u8>> {
    let (length, mut zeros) = (usize::try_from(length).map_err(|_| Error::OutOfMemory)?, Vec::new());
    zeros.try_reserve_exact(length).map_err(|_| Error::OutOfMemory)?;
    zeros.resize(length, 0);
    Ok(zeros)
}

/// Whether a verifying call with limits returned a match.
pub(crate) fn within_limits(number: u32) -> result::Result<bool, Unverified> {
    match number {
        TOO_COSTLY => Err(Unverified::TooCostly),
        number => Ok(verdict(number)?),
    }
}

/// Whether a verifying call returned a match. Any number that is not a verdict is an error.
pub(crate) fn verdict(number: u32) -> Result<bool> {
    match number {
        MISMATCH => Ok(false),
        number => require_done(number).map(|()| true),
    }
}

/// The error of a call, unless it succeeded.
pub(crate) fn require_done(number: u32) -> Result<()> {
    match number {
        OK => Ok(()),
        number => Err(Error::of_number(number)),
    }
}
