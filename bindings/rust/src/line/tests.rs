//! Places and the queue.

use super::{Busy, Enter, Line, Place, Unpark};
use crate::Config;
use std::future::Future;
use std::pin::Pin;
use std::sync::atomic::{AtomicUsize, Ordering::SeqCst};
use std::sync::{mpsc, Arc};
use std::task::{Context, Poll, Wake, Waker};
use std::thread;
use std::time::{Duration, Instant};

/// The free places, and how many callers wait.
fn state_of(line: &Line) -> (usize, usize) {
    let state = line.0.lock();
    (state.free, state.queue.len())
}

fn small(mem_cost: u32) -> Config<'static> {
    Config { mem_cost, time_cost: 1, ..Config::default() }
}

fn waker() -> Waker {
    Waker::from(Arc::new(Unpark(thread::current())))
}

#[test]
fn no_more_callers_compute_or_wait_than_the_line_allows() {
    let line = Line::new(2, 3);
    let (running, most, busy) = (AtomicUsize::new(0), AtomicUsize::new(0), AtomicUsize::new(0));
    let held = [line.wait().unwrap(), line.wait().unwrap()];
    thread::scope(|scope| {
        for _ in 0..6 {
            scope.spawn(|| match line.wait() {
                Ok(_place) => {
                    most.fetch_max(running.fetch_add(1, SeqCst) + 1, SeqCst);
                    thread::yield_now();
                    running.fetch_sub(1, SeqCst);
                }
                Err(Busy) => {
                    busy.fetch_add(1, SeqCst);
                }
            });
        }
        let begun = Instant::now();
        while busy.load(SeqCst) < 3 {
            assert!(begun.elapsed() < Duration::from_secs(3600), "more callers wait than may");
            thread::yield_now();
        }
        assert_eq!((line.running(), line.queued(), line.refused()), (2, 3, 3));
        drop(held);
    });
    assert_eq!(busy.into_inner(), 3);
    assert!(most.into_inner() <= 2);
    let places = [line.wait().unwrap(), line.clone().wait().unwrap()];
    assert_eq!(state_of(&line), (0, 0));
    drop(places);
    assert_eq!(state_of(&line), (2, 0));
    assert_eq!((line.running(), line.queued(), line.refused()), (0, 0, 3));
}

#[test]
fn a_caller_who_leaves_passes_the_place_on() {
    let waker = waker();
    let mut context = Context::from_waker(&waker);
    let line = Line::new(1, 3);
    let place = line.wait().unwrap();
    let mut waiting: Vec<_> = (0..3).map(|_| line.enter()).collect();
    for enter in &mut waiting {
        assert!(Pin::new(enter).poll(&mut context).is_pending());
    }
    assert!(matches!(Pin::new(&mut line.enter()).poll(&mut context), Poll::Ready(Err(Busy))));
    drop(waiting.remove(1)); // it has no place yet
    drop(place); // the first has it now, and leaves before it is polled
    drop(waiting.remove(0));
    assert!(matches!(Pin::new(&mut waiting[0]).poll(&mut context), Poll::Ready(Ok(_))));
    drop(waiting);
    assert_eq!(state_of(&line), (1, 0));
}

/// Wakes nobody, and owns a place, as an executor's waker owns the task that has the place.
struct Owner {
    _place: Place,
}

impl Wake for Owner {
    fn wake(self: Arc<Self>) {}
}

/// A caller who waits for the only place of a line. The line has the last waker that owns this place.
fn waiting_for_its_own_place(line: &Line) -> Enter {
    let owner = Waker::from(Arc::new(Owner { _place: line.wait().unwrap() }));
    let mut enter = line.enter();
    assert!(Pin::new(&mut enter).poll(&mut Context::from_waker(&owner)).is_pending());
    enter
}

/// Whether this work succeeds in a thread, and does not wait for ever.
fn ends(work: impl FnOnce() + Send + 'static) -> bool {
    let (done, end) = mpsc::channel();
    thread::spawn(move || {
        work();
        done.send(()).unwrap();
    });
    end.recv_timeout(Duration::from_secs(3600)).is_ok()
}

#[test]
fn a_waker_that_is_replaced_may_own_a_place() {
    assert!(ends(|| {
        let (line, waker) = (Line::new(1, 1), waker());
        let (mut enter, mut context) = (waiting_for_its_own_place(&line), Context::from_waker(&waker));
        assert!(Pin::new(&mut enter).poll(&mut context).is_pending());
        // The owner has left its place to this caller.
        assert!(matches!(Pin::new(&mut enter).poll(&mut context), Poll::Ready(Ok(_))));
    }));
}

#[test]
fn the_waker_of_a_caller_who_leaves_may_own_a_place() {
    assert!(ends(|| {
        let line = Line::new(1, 1);
        drop(waiting_for_its_own_place(&line));
        assert_eq!(state_of(&line), (1, 0));
    }));
}

#[test]
fn the_number_of_places_fits_the_settings_the_processors_and_the_memory() {
    let places = |config: &Config<'_>, memory| state_of(&Line::of(config, memory)).0;
    let many_lanes = Config { mem_cost: 1024, lanes: 1 << 20, ..Config::default() };
    assert_eq!((places(&many_lanes, 1 << 40), Line::of(&many_lanes, 1 << 40).0.waiting), (1, 16));
    let processors = thread::available_parallelism().map_or(1, usize::from);
    assert_eq!(places(&small(1024), 1 << 40), processors);
    assert_eq!(places(&small(1024), 2 << 20), processors.min(2));
    assert_eq!(places(&small(1024), 0), 1);
    // (a hash of 19 MiB takes up to 20 MiB)
    assert_eq!((places(&small(19456), 40 << 20), places(&small(19456), (40 << 20) - 1)), (processors.min(2), 1));
}

#[test]
fn a_line_that_is_gone_is_freed_with_its_buffers() {
    let line = Line::new(1, 0);
    let mut place = line.wait().unwrap();
    place.run().hash_raw(b"password", b"somesalt", &small(64)).unwrap();
    let shared = Arc::downgrade(&line.0);
    drop(line);
    assert!(shared.upgrade().is_some(), "a place keeps its line");
    drop(place);
    let begun = Instant::now();
    while shared.upgrade().is_some() {
        // The thread that frees idle buffers holds the line only while it looks at it.
        assert!(begun.elapsed() < Duration::from_secs(3600), "the line is kept");
        thread::yield_now();
    }
}
