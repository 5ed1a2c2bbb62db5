//! Random bytes from the system.

use std::ffi::c_void;

/// The length of a new salt in bytes (RFC 9106, 3.1).
pub const SALT_SIZE: usize = 16;

/// A new salt, or none if the system returns no random bytes.
pub fn new_salt() -> Option<[u8; SALT_SIZE]> {
    let mut salt = [0; SALT_SIZE];
    fill(&mut salt).then_some(salt)
}

/// Fills the salt, and returns whether the system had random bytes.
#[cfg(not(windows))]
fn fill(salt: &mut [u8; SALT_SIZE]) -> bool {
    extern "C" {
        fn getentropy(buffer: *mut c_void, length: usize) -> std::os::raw::c_int;
    }

    // SAFETY: the pointer and the length are those of an array that this function may write to.
    unsafe { getentropy(salt.as_mut_ptr().cast(), SALT_SIZE) == 0 }
}

/// Fills the salt, and returns whether the system had random bytes.
#[cfg(windows)]
fn fill(salt: &mut [u8; SALT_SIZE]) -> bool {
    use std::os::raw::{c_long, c_ulong};

    #[link(name = "bcrypt")]
    extern "system" {
        fn BCryptGenRandom(none: *mut c_void, buffer: *mut u8, length: c_ulong, flags: c_ulong) -> c_long;
    }

    /// The system chooses the algorithm.
    const BCRYPT_USE_SYSTEM_PREFERRED_RNG: c_ulong = 2;
    // SAFETY: the pointer and the length are those of an array that this function may write to.
    let status = unsafe {
        BCryptGenRandom(std::ptr::null_mut(), salt.as_mut_ptr(), SALT_SIZE as c_ulong, BCRYPT_USE_SYSTEM_PREFERRED_RNG)
    };
    status == 0
}

#[cfg(test)]
mod tests {
    use super::{new_salt, SALT_SIZE};

    /// All eight salts have the same byte somewhere only once in 2^52 times.
    #[test]
    fn each_byte_of_a_salt_is_random() {
        let salts: Vec<_> = (0..8).map(|_| new_salt().unwrap()).collect();
        for at in 0..SALT_SIZE {
            assert!(salts.iter().any(|salt| salt[at] != salts[0][at]), "byte {at}");
        }
    }
}
