//! RustCrypto's argon2 and rust-argon2 behind calls for bench/times.py, which write the tag and return 0.

const PASSWORD: &[u8] = b"password";
const SALT: &[u8] = b"somesaltsomesalt";

/// Returns 1 for several threads: this crate uses only one.
#[no_mangle]
pub extern "C" fn rustcrypto(memory: u32, passes: u32, lanes: u32, threads: u32, tag: &mut [u8; 32]) -> i32 {
    use rustcrypto::{Algorithm, Argon2, Params, Version};
    let params = Params::new(memory, passes, lanes, Some(tag.len())).expect("a cost");
    let hasher = Argon2::new(Algorithm::Argon2id, Version::V0x13, params);
    i32::from(threads != 1 || hasher.hash_password_into(PASSWORD, SALT, tag).is_err())
}

#[cfg(rust_argon2)]
#[no_mangle]
pub extern "C" fn rust_argon2(memory: u32, passes: u32, lanes: u32, threads: u32, tag: &mut [u8; 32]) -> i32 {
    use rust_argon2::{hash_raw, Config, ThreadMode};
    let thread_mode = ThreadMode::from_threads(threads);
    let config = Config { lanes, mem_cost: memory, thread_mode, time_cost: passes, ..Config::rfc9106_low_mem() };
    tag.copy_from_slice(&hash_raw(PASSWORD, SALT, &config).expect("the tag"));
    0
}
