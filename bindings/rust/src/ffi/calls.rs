//! The calls of the C library, as its headers declare them: made by `declare.py`.

use super::{Limits, Options, Settings, Stored, Tuning};
use std::ffi::c_void;

#[allow(dead_code)] // some are called by tests alone
#[rustfmt::skip] // as the headers are laid out
extern "C" {
    pub fn proved_argon2_buffers_free(buffers: *mut c_void);
    pub fn proved_argon2_buffers_free_idle(buffers: *mut c_void) -> u32;
    pub fn proved_argon2_buffers_new(
        settings: *const Settings, most: u32, buffers: *mut *mut c_void) -> u32;
    pub fn proved_argon2_check(
        settings: *const Settings, pwd_len: u64, salt_len: u64, secret_len: u64, ad_len: u64) -> u32;
    pub fn proved_argon2_default_limits() -> Limits;
    pub fn proved_argon2_encoded_len(settings: *const Settings, salt_len: u32) -> u64;
    pub fn proved_argon2_hash_encoded_with(
        options: *const Options,
        pwd: *const c_void, pwd_len: usize,
        salt: *const u8, salt_len: usize,
        secret: *const u8, secret_len: usize,
        ad: *const u8, ad_len: usize,
        settings: *const Settings,
        text: *mut u8, text_len: usize) -> u32;
    pub fn proved_argon2_hash_raw_with(
        options: *const Options,
        pwd: *const c_void, pwd_len: usize,
        salt: *const u8, salt_len: usize,
        secret: *const u8, secret_len: usize,
        ad: *const u8, ad_len: usize,
        settings: *const Settings,
        out: *mut u8, out_len: usize) -> u32;
    pub fn proved_argon2_hashes_at_once(settings: *const Settings, bytes: u64) -> u32;
    pub fn proved_argon2_library_version() -> u32;
    pub fn proved_argon2_limits_for(settings: *const Settings) -> Limits;
    pub fn proved_argon2_memory_free(memory: *mut c_void, memory_len: usize);
    pub fn proved_argon2_memory_len(settings: *const Settings) -> u64;
    pub fn proved_argon2_memory_new(settings: *const Settings, memory: *mut *mut c_void, memory_len: *mut usize) -> u32;
    pub fn proved_argon2_message(number: u32) -> *const u8;
    pub fn proved_argon2_needs_rehash(
        text: *const u8, text_len: usize, settings: *const Settings) -> u32;
    pub fn proved_argon2_password_renew(
        options: *const Options,
        text: *const u8, text_len: usize,
        password: *const c_void, length: usize,
        pepper: *const u8, pepper_len: usize,
        new_pepper: *const u8, new_pepper_len: usize,
        ad: *const u8, ad_len: usize,
        new_text: *mut u8, new_text_len: usize) -> u32;
    pub fn proved_argon2_password_verify_unknown(
        options: *const Options, settings: *const Settings,
        password: *const c_void, length: usize, pepper: *const u8, pepper_len: usize) -> u32;
    pub fn proved_argon2_read(text: *const u8, text_len: usize, stored: *mut Stored) -> u32;
    pub fn proved_argon2_tune(
        options: *const Options, most: *const Settings, nanoseconds: u64,
        tuning: *mut Tuning) -> u32;
    pub fn proved_argon2_verify_encoded_with(
        options: *const Options,
        text: *const u8, text_len: usize,
        pwd: *const c_void, pwd_len: usize,
        secret: *const u8, secret_len: usize,
        ad: *const u8, ad_len: usize) -> u32;
    pub fn proved_argon2_verify_raw_with(
        options: *const Options,
        pwd: *const c_void, pwd_len: usize,
        salt: *const u8, salt_len: usize,
        secret: *const u8, secret_len: usize,
        ad: *const u8, ad_len: usize,
        settings: *const Settings,
        hash: *const u8, hash_len: usize) -> u32;
}
