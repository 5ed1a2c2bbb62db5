//! Makes the calls that standard input names, over the library of codes.c. Prints what each call returned and what the
//! library saw, which test_rust.py checks. A line of input is a call's name, how it is made, and what the library
//! returns.

use argon2::*;
use std::ffi::CStr;
use std::fmt::Debug;
use std::ops::ControlFlow::{Break, Continue};
use std::os::raw::c_char;
use std::panic::{catch_unwind, set_hook, AssertUnwindSafe};
use std::time::Duration;

extern "C" {
    fn set_answers(check: u32, then: u32, read: u32, memory: u32, kib_size: u32);
    fn seen() -> *const c_char;
}

/// Settings of which no two are equal, so that none can be passed in the place of another.
const CONFIG: Config<'_> = Config {
    ad: b"data",
    hash_length: 5,
    lanes: 4,
    mem_cost: 64,
    secret: b"key",
    thread_mode: ThreadMode::AtMost(3),
    time_cost: 3,
    variant: Variant::Argon2id,
    version: Version::Version13,
};
const LIMITS: Limits = Limits { lanes: 12, mem_cost: 10, time_cost: 11, work: 13 };
const TEXT: &str = "$argon2id$x";
const WORD: &[u8] = b"word";
const SALT: &[u8] = b"somesalt";
const HASH: &[u8] = b"hash";
const KEY: &[u8] = b"key";
const DATA: &[u8] = b"data";

/// Returns the result of a call, which allocates its own memory or is made by a `Run`.
fn call(name: &str, how: &str, memory: &mut Memory) -> Box<dyn Debug> {
    match (name, how) {
        ("hash_raw", "alone") => Box::new(hash_raw(WORD, SALT, &CONFIG)),
        ("hash_encoded", "alone") => Box::new(hash_encoded(WORD, SALT, &CONFIG)),
        ("verify_raw", "alone") => Box::new(verify_raw(WORD, SALT, HASH, &CONFIG)),
        ("verify_encoded_alone", "alone") => Box::new(verify_encoded(TEXT, WORD)),
        ("verify_encoded", "alone") => Box::new(verify_encoded_ext(TEXT, WORD, KEY, DATA)),
        ("verify_encoded_within", "alone") => Box::new(verify_encoded_within(TEXT, WORD, KEY, DATA, &LIMITS)),
        ("verify_unknown", "alone") => Box::new(verify_unknown(WORD, &CONFIG)),
        ("verify_unknown", "over") => Box::new(run(how, memory).verify_unknown(WORD, &CONFIG)),
        ("verify_unknown", _) => {
            let config = Config { secret: b"no effect", ..CONFIG };
            Box::new(Peppers::new(&[("2026", KEY)], config).unwrap().verify_unknown(&mut Run::new(), WORD))
        }
        ("tune", _) => {
            let found = tune(Duration::from_nanos(77), &CONFIG);
            Box::new(found.map(|found| found.map(|found| (found.config == CONFIG, found.time))))
        }
        ("needs_rehash", _) => Box::new(needs_rehash(TEXT, &CONFIG)),
        ("read", _) => Box::new(read(TEXT)),
        ("encoded_len", _) => Box::new(encoded_len(Variant::Argon2d, 64, 3, 4, 9, 5)),
        ("limits", _) => Box::new(Limits::default()),
        ("new_memory", _) => Box::new(*memory = Memory::new()),
        ("hash_raw", _) => Box::new(run(how, memory).hash_raw(WORD, SALT, &CONFIG)),
        ("hash_encoded", _) => Box::new(run(how, memory).hash_encoded(WORD, SALT, &CONFIG)),
        ("verify_raw", _) => Box::new(run(how, memory).verify_raw(WORD, SALT, HASH, &CONFIG)),
        ("verify_encoded_alone", _) => Box::new(run(how, memory).verify_encoded(TEXT, WORD, &[], &[])),
        ("verify_encoded", _) => Box::new(run(how, memory).verify_encoded(TEXT, WORD, KEY, DATA)),
        ("verify_encoded_within", _) => {
            Box::new(run(how, memory).verify_encoded_within(TEXT, WORD, KEY, DATA, &LIMITS))
        }
        _ => panic!("there is no call {name}"),
    }
}

/// A run of a place, one in a reusable buffer, or one without a progress callback, or with one that lets the call go
/// on, stops it, or panics.
fn run<'a>(how: &str, memory: &'a mut Memory) -> Run<'a> {
    match how {
        "line" => Box::leak(Box::new(Line::of(&CONFIG, 1 << 30).wait().unwrap())).run(),
        "run" => Run::new(),
        "over" => Run::new().over(memory),
        "tells" => Run::new().with_progress(|done, all| if (done, all) == (1, 12) { Continue(()) } else { Break(()) }),
        "stops" => Run::new().with_progress(|_, _| Break(())).over(memory),
        _ => Run::new().over(memory).with_progress(|_, _| panic!("on")),
    }
}

fn main() {
    set_hook(Box::new(|_| {}));
    let mut memory = Memory::new();
    for line in std::io::stdin().lines() {
        let line = line.unwrap();
        let words: Vec<_> = line.split(' ').collect();
        let number = |place: usize| words[place].parse().unwrap();
        unsafe { set_answers(number(2), number(3), number(4), number(5), number(6)) };
        let shown = match catch_unwind(AssertUnwindSafe(|| call(words[0], words[1], &mut memory))) {
            Ok(value) => format!("{value:?}"),
            Err(why) => why.downcast::<&str>().map_or_else(|why| *why.downcast().unwrap(), |why| why.to_string()),
        };
        println!("{shown}|{}|{}", memory.size(), unsafe { CStr::from_ptr(seen()) }.to_str().unwrap());
    }
}
