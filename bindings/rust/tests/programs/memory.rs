//! Tests what calls of the crate leave of a password, and the buffers of a `Line`. The linker
//! gives this program the library's call that makes a handle of kept buffers (`--wrap`), and the system's call that
//! starts a thread. It can deny both, and counts the threads. codes.rs tests when a call allocates a buffer, and the
//! library's own tests whether a call clears it.

use argon2::password_hash::{PasswordHasher, PasswordVerifier};
use argon2::{hash_encoded, hash_raw, verify_raw, Argon2, Config, Error, Line, Memory, Run, ThreadMode};
use std::fs::{read_to_string, File};
use std::io::Read;
use std::sync::atomic::{AtomicBool, AtomicUsize, Ordering::SeqCst};
use std::thread;
use std::time::{Duration, Instant};

/// The next handles are denied if this is set.
static IS_DENIED: AtomicBool = AtomicBool::new(false);
static HANDLES: AtomicUsize = AtomicUsize::new(0);
const OUT_OF_MEMORY: u32 = 20;

/// Counts the threads that were started, and tells whether the next ones are denied, and with which error number.
static THREADS: AtomicUsize = AtomicUsize::new(0);
static ARE_THREADS_DENIED: AtomicBool = AtomicBool::new(false);
const EAGAIN: i32 = 11;

extern "C" {
    fn __real_pthread_create(thread: usize, attributes: usize, start: usize, argument: usize) -> i32;
    fn __real_proved_argon2_buffers_new(settings: usize, most: u32, buffers: &mut usize) -> u32;
    fn fork() -> i32;
    fn waitpid(child: i32, status: &mut i32, options: i32) -> i32;
    fn _exit(status: i32) -> !;
}

#[no_mangle]
unsafe extern "C" fn __wrap_proved_argon2_buffers_new(settings: usize, most: u32, buffers: &mut usize) -> u32 {
    if IS_DENIED.load(SeqCst) {
        OUT_OF_MEMORY
    } else {
        let number = __real_proved_argon2_buffers_new(settings, most, buffers);
        HANDLES.fetch_add(usize::from(number == 0), SeqCst);
        number
    }
}

#[no_mangle]
unsafe extern "C" fn __wrap_pthread_create(thread: usize, attributes: usize, start: usize, argument: usize) -> i32 {
    if ARE_THREADS_DENIED.load(SeqCst) {
        return EAGAIN;
    }
    let error = __real_pthread_create(thread, attributes, start, argument);
    THREADS.fetch_add(usize::from(error == 0), SeqCst);
    error
}

const PWD: &[u8] = b"password";
const SALT: &[u8] = b"somesalt";
const MODES: [ThreadMode; 3] = [ThreadMode::Sequential, ThreadMode::Parallel, ThreadMode::AtMost(3)];

/// Argon2id with this memory in KiB, this many lanes and one pass.
fn settings(mem_cost: u32, lanes: u32, thread_mode: ThreadMode) -> Config<'static> {
    Config { mem_cost, lanes, time_cost: 1, thread_mode, ..Config::default() }
}

/// Counts these bytes in the memory that this process may write to. We count in a forked child,
/// because no other thread can unmap memory there.
fn occurrences_of(word: &[u8]) -> usize {
    let mut status = -1;
    unsafe {
        let child = fork();
        if child == 0 {
            _exit(count(word) as i32);
        }
        assert!(child > 0 && waitpid(child, &mut status, 0) == child);
    }
    (status >> 8) as usize
}

fn count(word: &[u8]) -> usize {
    let mut maps = String::with_capacity(1 << 20); // so that nothing is mapped or unmapped meanwhile
    File::open("/proc/self/maps").and_then(|mut file| file.read_to_string(&mut maps)).unwrap();
    let places = maps.lines().filter(|line| line.contains(" rw")).map(|line| {
        let (from, to) = line.split(' ').next().unwrap().split_once('-').unwrap();
        let [from, to] = [from, to].map(|digits| usize::from_str_radix(digits, 16).unwrap());
        let bytes = unsafe { std::slice::from_raw_parts(from as *const u8, to - from) };
        bytes.windows(word.len()).filter(|window| *window == word).count()
    });
    places.sum()
}

/// No call leaves a copy of a password in memory. (The system's heap overwrites the first bytes of what is freed, so
/// the last half of the password is searched.)
fn no_copy_of_a_password_is_left() {
    let pwd: Vec<u8> = (0..64).map(|index: u16| (33 + index * 7 % 90) as u8).collect();
    let (mut memory, line) = (Memory::new(), Line::of(&settings(1024, 4, MODES[0]), 0));
    for mode in MODES {
        let config = settings(1024, 4, mode);
        let text = hash_encoded(&pwd, SALT, &config).unwrap();
        let tag = Run::new().over(&mut memory).hash_raw(&pwd, SALT, &config).unwrap();
        assert_eq!(verify_raw(&pwd, SALT, &tag, &config), Ok(true));
        assert_eq!(argon2::verify_password(&text, &pwd), Ok(true));
        assert!(argon2::verify_and_update(&text, &pwd, &Config::owasp5()).unwrap().1.is_some());
        assert!(line.wait().unwrap().run().verify_and_update(&text, &pwd, &Config::owasp5()).unwrap().1.is_some());
        assert_eq!(line.wait().unwrap().run().verify_unknown(&pwd, &config), Ok(false));
        assert_eq!(occurrences_of(&pwd[32..]), 1);
    }
}

/// No call leaves a copy of a tag that it does not return, or returns in the caller's own memory.
fn no_copy_of_a_tag_is_left() {
    let (config, salt) = (Config { hash_length: 64, ..settings(1024, 4, ThreadMode::Parallel) }, [0; 16]);
    let tag = hash_raw(PWD, &salt, &config).unwrap();
    assert_eq!(argon2::verify_unknown(PWD, &config), Ok(false));
    assert_eq!(occurrences_of(&tag[32..]), 1);
    let mut key = [0; 64];
    Argon2::from(config).hash_password_into(PWD, &salt, &mut key).unwrap();
    assert_eq!((key[..] == tag[..], occurrences_of(&tag[32..])), (true, 2));
    key.fill(0);
    assert_eq!((key, occurrences_of(&tag[32..])), ([0; 64], 1));
}

/// A stored hash of more lanes is verified by as few threads as any other, although the hasher computes one with all.
fn a_hasher_of_the_traits_verifies_with_at_most_16_threads() {
    let hasher = Argon2::from(settings(64 << 10, 64, ThreadMode::Parallel));
    let before = THREADS.load(SeqCst);
    let stored = hasher.hash_password(PWD, "c29tZXNhbHQ").unwrap();
    assert_eq!(THREADS.load(SeqCst), before + 63);
    hasher.verify_password(PWD, &stored).unwrap();
    assert_eq!(THREADS.load(SeqCst), before + 63 + 15);
}

/// Computes a hash of 19 MiB in a place of the line.
fn hash_in(line: &Line) {
    let tag = line.wait().unwrap().run().hash_raw(PWD, SALT, &Config::default());
    assert_eq!(tag, hash_raw(PWD, SALT, &Config::default()));
}

/// The memory that this process uses, in bytes.
fn resident() -> usize {
    let status = read_to_string("/proc/self/status").unwrap();
    let line = status.lines().find(|line| line.starts_with("VmRSS:")).unwrap();
    line.split_whitespace().nth(1).unwrap().parse::<usize>().unwrap() << 10
}

/// A line keeps a buffer until it is idle for ten seconds.
fn a_line_keeps_a_buffer_for_ten_seconds() {
    let (line, used, size, begun) = (Line::new(2, 0), resident(), 19 << 20, Instant::now());
    hash_in(&line);
    assert!(resident() >= used + size * 9 / 10);
    while resident() >= used + size / 2 {
        assert!(begun.elapsed() < Duration::from_secs(3600));
        thread::sleep(Duration::from_millis(100));
    }
    assert!(begun.elapsed() >= Duration::from_secs(10), "{:?}", begun.elapsed());
    hash_in(&line);
}

/// A line for which the system denies the handle of its buffers computes without any.
fn a_line_whose_buffers_are_denied_computes_without_them() {
    IS_DENIED.store(true, SeqCst);
    let line = Line::new(1, 0);
    IS_DENIED.store(false, SeqCst);
    hash_in(&line);
    let rejected = Config { time_cost: 0, ..Config::default() };
    assert_eq!(line.wait().unwrap().run().hash_raw(PWD, SALT, &rejected), Err(Error::TimeTooSmall));
}

/// A line with more places than the library has buffers keeps as many as that allows.
fn a_line_of_any_number_of_places_has_buffers() {
    let before = HANDLES.load(SeqCst);
    hash_in(&Line::new(8193, 0));
    hash_in(&Line::new(usize::MAX, 0));
    assert_eq!(HANDLES.load(SeqCst), before + 2);
}

/// A line that cannot start the thread which frees idle buffers starts it when the next place is left.
fn a_line_starts_a_denied_thread_later() {
    let (line, before) = (Line::new(1, 0), THREADS.load(SeqCst));
    ARE_THREADS_DENIED.store(true, SeqCst);
    hash_in(&line);
    ARE_THREADS_DENIED.store(false, SeqCst);
    hash_in(&line);
    hash_in(&line);
    assert_eq!(THREADS.load(SeqCst), before + 1);
}

fn main() {
    no_copy_of_a_password_is_left();
    no_copy_of_a_tag_is_left();
    a_hasher_of_the_traits_verifies_with_at_most_16_threads();
    a_line_whose_buffers_are_denied_computes_without_them();
    a_line_of_any_number_of_places_has_buffers();
    a_line_starts_a_denied_thread_later();
    a_line_keeps_a_buffer_for_ten_seconds();
}
