//! Argon2 password hashing (RFC 9106). Proved code computes the hashes, and the names are those of
//! `rust-argon2` 3.0.
//!
//! A program that uses `rust-argon2` changes one line of its `Cargo.toml`:
//!
//! ```toml
//! argon2 = { package = "proved-argon2", path = "../argon2/bindings/rust" }
//! ```
//!
//! # Examples
//!
//! Hash a password to an encoded hash (PHC string) with a new random salt, and verify it within the
//! default limits:
//!
//! ```
//! use proved_argon2 as argon2;
//!
//! let text = argon2::hash_password(b"password")?;
//! assert!(argon2::verify_password(&text, b"password")?);
//! # Ok::<(), Box<dyn std::error::Error>>(())
//! ```
//!
//! With your own settings:
//!
//! ```
//! use proved_argon2::{self as argon2, Config, Variant};
//!
//! let config = Config { variant: Variant::Argon2i, mem_cost: 4096, lanes: 4, ..Config::default() };
//! let text = argon2::hash_encoded(b"password", b"othersalt", &config)?;
//! assert!(argon2::verify_encoded(&text, b"password")?);
//! # Ok::<(), argon2::Error>(())
//! ```
//!
//! # What is proved
//!
//! The library's calls that compute Argon2, and that encode and decode its hashes, are proved, except for the
//! compression function for AVX-512 and ARM64. A driver in C provides memory and threads for them, and this crate calls
//! it. Both are tested, not proved. The only `unsafe` code is in the module `ffi`.
//!
//! # Threads
//!
//! With [`ThreadMode::Parallel`] or [`ThreadMode::AtMost`] several threads compute the lanes. Each call
//! starts and joins them. An encoded hash is verified by one thread for each lane, but at most 16. The
//! code that fills a lane is proved; the C code that starts the threads is tested, not proved. A
//! [`Run`] reports the progress of a call, and can stop it. A [`Line`] limits how many hashes a service
//! computes at a time.
//!
//! # Limits
//!
//! The memory of a hash is cleared; the caller has to clear passwords. An encoded hash names the passes
//! and the memory (up to 4 TiB) that verifying it takes. For a hash that others may have written, use
//! [`verify_password`] or [`verify_encoded_within`].
#![deny(unsafe_code)]
#![warn(missing_docs, clippy::missing_errors_doc, clippy::must_use_candidate)]

mod config;
mod error;
#[allow(unsafe_code)]
mod ffi;
mod hashing;
mod limits;
mod line;
mod memory;
mod peppers;
mod run;
mod service;
#[cfg(feature = "password-hash")]
mod traits;
mod tuning;
mod variant;
mod verifying;

pub use config::{Config, ThreadMode};
pub use error::{Error, Result};
pub use hashing::{encoded_len, hash_encoded, hash_password, hash_password_with, hash_raw};
pub use limits::{Limits, Unverified};
pub use line::{Busy, Enter, Line, Place};
pub use memory::Memory;
pub use peppers::Peppers;
pub use run::Run;
pub use service::{verify_and_update, verify_unknown};
pub use tuning::{tune, Tuning};
pub use variant::{Variant, Version};
pub use verifying::{
    needs_rehash, read, verify_encoded, verify_encoded_ext, verify_encoded_within, verify_password, verify_raw, Stored,
};
#[cfg(feature = "password-hash")]
pub use {
    password_hash,
    traits::{Argon2, Params},
    variant::Variant as Algorithm,
};
