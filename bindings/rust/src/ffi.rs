//! The calls of the C library, as safe functions that return the library's number. All `unsafe` code is here.
//!
//! Each slice is passed as a pointer and a length. The library reads what is passed as `*const`, writes only within the
//! length of what is passed as `*mut`, and keeps no pointer. The pointer of a slice is never null.

mod calls;
mod salt;

pub use salt::{new_salt, SALT_SIZE};

use crate::{Config, Limits};
use calls::*;
use std::any::Any;
use std::ffi::c_void;
use std::mem::size_of;
use std::ops::ControlFlow;
use std::os::raw::c_int;
use std::panic::{catch_unwind, resume_unwind, AssertUnwindSafe};
use std::ptr::{null, null_mut, NonNull};
use std::time::Duration;

/// Success, or a match.
pub const OK: u32 = 0;

/// An allocation failed, or the caller's buffer is too small.
pub const OUT_OF_MEMORY: u32 = 20;

/// A verifying call: the password does not match.
pub const MISMATCH: u32 = 64;

/// The encoded hash has other settings.
pub const NEEDS_REHASH: u32 = 68;

/// The encoded hash is above the limits.
pub const TOO_COSTLY: u32 = 69;

/// As many threads as the library allows for an encoded hash.
const ALL_THREADS: u32 = u32::MAX;

/// The most kept buffers of a handle.
const MAX_BUFFERS: u32 = 8192;

/// `proved_argon2_settings` of the header.
#[repr(C)]
#[derive(Default)]
pub struct Settings {
    pub variant: u32,
    pub version: u32,
    pub mem_cost: u32,
    pub time_cost: u32,
    pub lanes: u32,
    pub hash_length: u32,
}

/// `proved_argon2_stored` of the header.
#[repr(C)]
#[derive(Default)]
pub struct Stored {
    pub settings: Settings,
    pub salt_length: u32,
}

/// `proved_argon2_tuning` of the header.
#[repr(C)]
#[derive(Default)]
pub struct Tuning {
    pub settings: Settings,
    pub nanoseconds: u64,
}

/// `proved_argon2_options` of the header.
#[repr(C)]
pub struct Options {
    size: usize,
    threads: u32,
    memory: *mut c_void,
    memory_len: usize,
    limits: *const Limits,
    progress: Option<extern "C" fn(*mut c_void, u64, u64) -> c_int>,
    arg: *mut c_void,
    new_settings: *const Settings,
    buffers: *mut c_void,
    new_salt_len: usize,
}

/// What the caller provides: a buffer or kept buffers, without which the call allocates memory; and a progress
/// callback.
#[derive(Default)]
pub struct Extras<'call, 'a> {
    pub buffer: Option<&'call mut Buffer>,
    pub kept: Option<&'call Buffers>,
    pub progress: Option<&'call mut Progress<'a>>,
}

impl Options {
    /// The values of fields that an initializer in C leaves out.
    const NONE: Options = Options {
        size: 0,
        threads: 0,
        memory: null_mut(),
        memory_len: 0,
        limits: null(),
        progress: None,
        arg: null_mut(),
        new_settings: null(),
        buffers: null_mut(),
        new_salt_len: 0,
    };

    /// Options with this many threads. They point to what the caller provides, which has to outlive them.
    fn by(threads: u32, extras: Extras<'_, '_>) -> Options {
        let (memory, memory_len) = extras.buffer.map_or((null_mut(), 0), |buffer| (buffer.address, buffer.length));
        Options {
            size: size_of::<Options>(),
            threads,
            memory,
            memory_len,
            buffers: extras.kept.map_or(null_mut(), |kept| kept.0),
            progress: extras.progress.as_ref().map(|_| report as _),
            arg: extras.progress.map_or(null_mut(), |progress| (progress as *mut Progress<'_>).cast()),
            ..Options::NONE
        }
    }
}

impl Settings {
    pub fn of(config: &Config<'_>) -> Settings {
        let Config { mem_cost, time_cost, lanes, hash_length, .. } = *config;
        let (variant, version) = (config.variant.as_u32(), config.version.as_u32());
        Settings { variant, version, mem_cost, time_cost, lanes, hash_length }
    }
}

/// Memory that the library allocated, or none. This crate never reads it, and each call clears what it used.
pub struct Buffer {
    /// Some address if the length is 0: a call without one would allocate memory of its own.
    address: *mut c_void,
    length: usize,
}

// SAFETY: nothing else has the address, and the library does not bind memory to a thread.
unsafe impl Send for Buffer {}

// SAFETY: a shared reference only gives the length.
unsafe impl Sync for Buffer {}

impl Buffer {
    /// Memory that is large enough for these settings, or none if the system denies it.
    pub fn of(settings: &Settings) -> Buffer {
        let (mut address, mut length) = (null_mut(), 0);
        // SAFETY: the library reads the settings, and writes to variables of this function.
        let number = unsafe { proved_argon2_memory_new(settings, &mut address, &mut length) };
        if number == OK {
            Buffer { address, length }
        } else {
            Buffer::default()
        }
    }

    pub fn length(&self) -> usize {
        self.length
    }
}

impl Default for Buffer {
    fn default() -> Buffer {
        Buffer { address: NonNull::<u64>::dangling().as_ptr().cast(), length: 0 }
    }
}

impl Drop for Buffer {
    fn drop(&mut self) {
        if self.length > 0 {
            // SAFETY: the library allocated this memory, with this length, and it is freed once.
            unsafe { proved_argon2_memory_free(self.address, self.length) }
        }
    }
}

/// Kept buffers, which calls in any threads share, and none if the system denied memory for the handle.
#[derive(Debug)]
pub struct Buffers(*mut c_void);

// SAFETY: the library lets any thread use and free the handle.
unsafe impl Send for Buffers {}

// SAFETY: any number of threads may use the handle at once.
unsafe impl Sync for Buffers {}

impl Buffers {
    /// Makes a handle for this many buffers, or as many as the library allows. Each is large enough for these settings.
    pub fn new(settings: &Settings, most: usize) -> Buffers {
        let (mut handle, most) = (null_mut(), u32::try_from(most).map_or(MAX_BUFFERS, |most| most.min(MAX_BUFFERS)));
        // SAFETY: the library reads the settings, and writes to a variable of this function.
        let number = unsafe { proved_argon2_buffers_new(settings, most, &mut handle) };
        Buffers(if number == OK { handle } else { null_mut() })
    }

    /// Frees the buffers that have been idle for ten seconds, and returns when the next one will have been, if any is
    /// idle.
    pub fn free_idle(&self) -> Option<Duration> {
        // SAFETY: the handle is the library's, or null, and exists as long as `self`.
        let milliseconds = unsafe { proved_argon2_buffers_free_idle(self.0) };
        (milliseconds > 0).then(|| Duration::from_millis(milliseconds.into()))
    }
}

impl Drop for Buffers {
    fn drop(&mut self) {
        // SAFETY: no call uses the handle any more, since each borrows it. It is freed once.
        unsafe { proved_argon2_buffers_free(self.0) }
    }
}

/// The progress callback of a call. It gets the numbers of filled slices and of all slices, and returns whether
/// the call goes on. If it panics, the call stops, and the panic goes on after the call has returned: no panic passes
/// through C.
pub struct Progress<'a> {
    callback: Box<dyn FnMut(u64, u64) -> ControlFlow<()> + 'a>,
    panic: Option<Box<dyn Any + Send>>,
}

impl<'a> Progress<'a> {
    pub fn new(callback: impl FnMut(u64, u64) -> ControlFlow<()> + 'a) -> Progress<'a> {
        Progress { callback: Box::new(callback), panic: None }
    }

    /// Resumes the panic, if one has stopped the call.
    pub fn resume_panic(&mut self) {
        if let Some(panic) = self.panic.take() {
            resume_unwind(panic);
        }
    }
}

/// `proved_argon2_progress` of the header.
extern "C" fn report(arg: *mut c_void, done: u64, all: u64) -> c_int {
    // SAFETY: `Options::by` passes this function together with `arg`, which is borrowed for the call alone.
    // The library calls it in the caller's thread, and never twice at once.
    let progress = unsafe { &mut *arg.cast::<Progress<'_>>() };
    match catch_unwind(AssertUnwindSafe(|| (progress.callback)(done, all))) {
        Ok(flow) => flow.is_break().into(),
        Err(panic) => {
            progress.panic = Some(panic);
            1
        }
    }
}

/// Calls the library with options, then a pointer and a length for each of these slices, and then the rest.
macro_rules! call {
    ($name:ident, $options:expr, [$($bytes:expr),*] $(, $rest:expr)*) => {{
        let options = $options;
        // SAFETY: each pointer and length are those of a slice. What the call writes to is borrowed for it alone. The
        // settings, and what the options point to, outlive the call. Threads that it starts end before it returns.
        unsafe { $name(&options, $($bytes.as_ptr().cast(), $bytes.len(),)* $($rest,)*) }
    }};
}

/// Whether a hash with these settings can be made from such inputs. Only their lengths are passed.
pub fn check(pwd: &[u8], salt: &[u8], config: &Config<'_>) -> u32 {
    let [pwd, salt, secret, ad] = [pwd, salt, config.secret, config.ad].map(|bytes| bytes.len() as u64);
    // SAFETY: the settings are read, and nothing is written.
    unsafe { proved_argon2_check(&Settings::of(config), pwd, salt, secret, ad) }
}

/// Writes the tag to `out`, which has `config.hash_length` bytes.
pub fn hash_raw(pwd: &[u8], salt: &[u8], config: &Config<'_>, extras: Extras<'_, '_>, out: &mut [u8]) -> u32 {
    let (options, settings) = (Options::by(config.workers(), extras), Settings::of(config));
    let (to, length) = (out.as_mut_ptr(), out.len());
    call!(proved_argon2_hash_raw_with, options, [pwd, salt, config.secret, config.ad], &settings, to, length)
}

/// Writes the encoded hash and then zeros to `out`, which is longer than the encoded hash.
pub fn hash_encoded(pwd: &[u8], salt: &[u8], config: &Config<'_>, extras: Extras<'_, '_>, out: &mut [u8]) -> u32 {
    let (options, settings) = (Options::by(config.workers(), extras), Settings::of(config));
    let (to, length) = (out.as_mut_ptr(), out.len());
    call!(proved_argon2_hash_encoded_with, options, [pwd, salt, config.secret, config.ad], &settings, to, length)
}

/// Computes a tag as long as the hash, and compares the two.
pub fn verify_raw(pwd: &[u8], salt: &[u8], hash: &[u8], config: &Config<'_>, extras: Extras<'_, '_>) -> u32 {
    let (options, settings) = (Options::by(config.workers(), extras), Settings::of(config));
    let (with, length) = (hash.as_ptr(), hash.len());
    call!(proved_argon2_verify_raw_with, options, [pwd, salt, config.secret, config.ad], &settings, with, length)
}

/// Verifies a password against an encoded hash, if that is within the limits.
pub fn verify_encoded(
    text: &str,
    pwd: &[u8],
    secret: &[u8],
    ad: &[u8],
    limits: Option<&Limits>,
    extras: Extras<'_, '_>,
) -> u32 {
    let limits = limits.map_or(null(), |limits| limits as *const Limits);
    let options = Options { limits, ..Options::by(ALL_THREADS, extras) };
    call!(proved_argon2_verify_encoded_with, options, [text, pwd, secret, ad])
}

/// Verifies a password with the secret of `config`. If the encoded hash is outdated, as it is if there is a new secret,
/// a new one and then zeros are written to `out`, and the number is `NEEDS_REHASH`.
pub fn renew(
    text: &str,
    pwd: &[u8],
    config: &Config<'_>,
    new_secret: &[u8],
    extras: Extras<'_, '_>,
    out: &mut [u8],
) -> u32 {
    let (limits, new_settings, new_salt_len) = (limits_for(config), Settings::of(config), SALT_SIZE);
    let options =
        Options { limits: &limits, new_settings: &new_settings, new_salt_len, ..Options::by(ALL_THREADS, extras) };
    let (to, length) = (out.as_mut_ptr(), out.len());
    call!(proved_argon2_password_renew, options, [text, pwd, config.secret, new_secret, config.ad], to, length)
}

/// Computes a hash of the password with these settings, and never matches.
pub fn verify_unknown(pwd: &[u8], config: &Config<'_>, extras: Extras<'_, '_>) -> u32 {
    let (options, settings) = (Options::by(ALL_THREADS, extras), Settings::of(config));
    let (secret, length) = (config.secret.as_ptr(), config.secret.len());
    // SAFETY: each pointer and length are those of a slice. The settings, and what the options point to, outlive the
    // call. Threads that it starts end before it returns.
    unsafe {
        proved_argon2_password_verify_unknown(&options, &settings, pwd.as_ptr().cast(), pwd.len(), secret, length)
    }
}

/// Searches for settings whose hash takes at most this many nanoseconds, if the number is `OK`.
pub fn tune(config: &Config<'_>, nanoseconds: u64) -> (u32, Tuning) {
    let (options, mut tuning) = (Options::by(config.workers(), Extras::default()), Tuning::default());
    // SAFETY: the settings and the options are read, and `tuning` is this function's own. Threads that the call starts
    // end before it returns.
    let number = unsafe { proved_argon2_tune(&options, &Settings::of(config), nanoseconds, &mut tuning) };
    (number, tuning)
}

/// The library's default limits.
pub fn default_limits() -> Limits {
    // SAFETY: the call has no arguments.
    unsafe { proved_argon2_default_limits() }
}

/// The library's default limits, each raised to that of these settings.
pub fn limits_for(config: &Config<'_>) -> Limits {
    // SAFETY: the settings are read, and nothing is written.
    unsafe { proved_argon2_limits_for(&Settings::of(config)) }
}

/// How many hashes with these settings fit into this many bytes.
pub fn hashes_at_once(config: &Config<'_>, bytes: usize) -> u32 {
    // SAFETY: the settings are read, and nothing is written.
    unsafe { proved_argon2_hashes_at_once(&Settings::of(config), bytes as u64) }
}

/// What an encoded hash decodes to, if the number is `OK`.
pub fn read(text: &str) -> (u32, Stored) {
    let mut stored = Stored::default();
    // SAFETY: the pointer and the length are those of a slice, and `stored` is this function's own.
    let number = unsafe { proved_argon2_read(text.as_ptr(), text.len(), &mut stored) };
    (number, stored)
}

/// How many bytes a call with these settings needs for its blocks.
pub fn memory_len(settings: &Settings) -> u64 {
    // SAFETY: the settings are read, and nothing is written.
    unsafe { proved_argon2_memory_len(settings) }
}

/// Compares the settings of an encoded hash with others.
pub fn needs_rehash(text: &str, config: &Config<'_>) -> u32 {
    // SAFETY: the pointer and the length are those of a slice, and nothing is written.
    unsafe { proved_argon2_needs_rehash(text.as_ptr(), text.len(), &Settings::of(config)) }
}

/// The length of an encoded hash for a salt of this length.
pub fn encoded_len(config: &Config<'_>, salt_len: u32) -> u64 {
    // SAFETY: the settings are read, and nothing is written.
    unsafe { proved_argon2_encoded_len(&Settings::of(config), salt_len) }
}

/// The message of an error's number.
#[cfg(test)]
pub fn message(number: u32) -> String {
    // SAFETY: the call returns a constant of the library, which ends with a zero.
    let text = unsafe { std::ffi::CStr::from_ptr(proved_argon2_message(number).cast()) };
    text.to_string_lossy().into_owned()
}

#[cfg(test)]
mod tests {
    #[test]
    fn the_library_has_the_version_of_this_crate() {
        // SAFETY: the call has no arguments.
        let number = unsafe { super::proved_argon2_library_version() };
        let version = format!("{}.{}.{}", number / 1_000_000, number / 1_000 % 1_000, number % 1_000);
        // What is no release has a `-` behind these numbers.
        assert_eq!(Some(&*version), env!("CARGO_PKG_VERSION").split('-').next());
    }
}
