//! These tests show when a `Run` calls its progress callback. test_rust.py tests which calls pass it on, how it stops a
//! call, and that a panic in it goes on in the caller.

use proved_argon2::{hash_raw, Config, Run, ThreadMode};
use std::ops::ControlFlow::Continue;
use std::thread;

#[test]
fn each_slice_is_reported_in_the_caller_s_thread_and_the_hash_is_the_same() {
    for (mem_cost, time_cost, thread_mode) in
        [(16, 1, ThreadMode::Sequential), (640, 2, ThreadMode::Parallel), (4096, 5, ThreadMode::AtMost(2))]
    {
        let config = Config { lanes: 2, mem_cost, time_cost, thread_mode, ..Config::default() };
        let mut seen = Vec::new();
        let mut run = Run::new().with_progress(|done, all| {
            seen.push((done, all, thread::current().id()));
            Continue(())
        });
        assert_eq!(run.hash_raw(b"password", b"somesalt", &config), hash_raw(b"password", b"somesalt", &config));
        assert_eq!(format!("{run:?}"), "Run { memory: None, has_progress: true }");
        drop(run);
        let slices = 4 * u64::from(time_cost);
        let expected: Vec<_> = (1..=slices).map(|done| (done, slices, thread::current().id())).collect();
        assert_eq!(seen, expected);
    }
}
