use crate::ffi::{self, Buffers, Settings};
use crate::{Config, Run};
use std::collections::VecDeque;
use std::future::Future;
use std::pin::Pin;
use std::sync::{Arc, Mutex, MutexGuard, Weak};
use std::task::{Context, Poll, Wake, Waker};
use std::time::Duration;
use std::{error, fmt, mem, thread};

/// How long the library keeps a buffer that no place uses.
const IDLE: Duration = Duration::from_secs(10);

/// A limit on how many hashes are computed at a time, and on how many callers wait for that. It serves threads and
/// async code of any runtime.
///
/// Make one for the whole service. A clone is the same line, as with [`Arc`]. A caller waits in the line for a
/// [`Place`], and computes with it:
///
/// ```
/// use proved_argon2::{self as argon2, Config, Line};
///
/// let line = Line::of(&Config::default(), 256 << 20); // such hashes use at most 256 MiB
/// let stored = argon2::hash_password(b"correct horse")?;
/// let mut place = line.wait()?; // or Err(Busy): answer with HTTP status 503
/// assert!(place.run().verify_password(&stored, b"correct horse")?);
/// # Ok::<(), Box<dyn std::error::Error>>(())
/// ```
///
/// In async code, move the place into the closure that computes. If a client leaves, its request is dropped, but the
/// hash goes on: the closure holds the place until the hash is complete.
///
/// ```text
/// let mut place = line.enter().await?;
/// tokio::task::spawn_blocking(move || place.run().verify_password(&stored, &pwd)).await?
/// ```
///
/// # Buffers
///
/// The calls of [`Place::run`] compute in buffers that the library keeps, at most one for each place. This saves the
/// time in which the system maps, clears and unmaps memory. Each call clears its buffer before it returns. A buffer
/// that nobody has used for ten seconds is freed, by a thread that sleeps meanwhile or, if the system denies this
/// thread, by a later call. A hash that needs a larger buffer uses memory of its own, and so does one whose buffer is
/// denied.
///
/// # Fork
///
/// Make the line after `fork`. In a forked child nobody gives back the places that threads of its parent hold.
#[derive(Clone, Debug)]
pub struct Line(Arc<Shared>);

#[derive(Debug)]
struct Shared {
    state: Mutex<State>,
    waiting: usize,
    buffers: Buffers,
}

#[derive(Debug)]
struct State {
    /// All places, and those that nobody holds.
    places: usize,
    free: usize,
    /// How many callers were turned away.
    refused: u64,
    next_ticket: u64,
    /// Those who wait, the first of whom gets the next place.
    queue: VecDeque<(u64, Waker)>,
    /// Whether a thread will free the buffers that are idle for too long.
    is_watched: bool,
}

/// As many callers compute and wait as the [`Line`] allows: answer "try again later", with HTTP status 503.
#[derive(Clone, Copy, Debug, Eq, PartialEq)]
pub struct Busy;

impl fmt::Display for Busy {
    fn fmt(&self, f: &mut fmt::Formatter<'_>) -> fmt::Result {
        f.write_str("Too many hashes are computed at a time")
    }
}

impl error::Error for Busy {}

/// The right to compute one hash at a time. Dropping the place gives it to the next caller in the line.
///
/// The place is owned, so that it can move into a closure, a thread or a task.
#[derive(Debug)]
pub struct Place {
    line: Arc<Shared>,
}

/// The future that [`Line::enter`] returns. Dropping it leaves the line.
#[derive(Debug)]
pub struct Enter {
    line: Arc<Shared>,
    /// The number of a caller who waits.
    ticket: Option<u64>,
}

impl Line {
    /// A line with this many places, at least one, in which this many more callers may wait. Its buffers are as large
    /// as hashes with [`Config::rfc9106_low_mem`] need.
    #[must_use]
    pub fn new(places: usize, waiting: usize) -> Line {
        Line::with_buffers(places, waiting, &Config::rfc9106_low_mem())
    }

    /// A line for hashes with these settings. It has as many places as `memory` bytes and one processor per lane allow,
    /// at least one. 16 times as many callers may wait. Its buffers are as large as such hashes need. If the CPU time
    /// of a container is limited, fewer processors count ([`thread::available_parallelism`]).
    #[must_use]
    pub fn of(config: &Config<'_>, memory: usize) -> Line {
        let processors = thread::available_parallelism().map_or(1, usize::from);
        let lanes = usize::try_from(config.lanes.max(1)).unwrap_or(usize::MAX);
        let fitting = usize::try_from(ffi::hashes_at_once(config, memory)).unwrap_or(usize::MAX);
        let places = (processors / lanes).min(fitting).max(1);
        Line::with_buffers(places, 16 * places, config)
    }

    /// Waits for a place in async code. The future returns [`Busy`] at once if no more callers may wait.
    #[must_use]
    pub fn enter(&self) -> Enter {
        Enter { line: Arc::clone(&self.0), ticket: None }
    }

    /// Waits for a place in a thread.
    ///
    /// # Errors
    ///
    /// [`Busy`] at once if no more callers may wait.
    pub fn wait(&self) -> Result<Place, Busy> {
        let waker = Waker::from(Arc::new(Unpark(thread::current())));
        let (mut context, mut enter) = (Context::from_waker(&waker), self.enter());
        loop {
            match Pin::new(&mut enter).poll(&mut context) {
                Poll::Ready(place) => return place,
                Poll::Pending => thread::park(),
            }
        }
    }

    /// How many callers hold a place now.
    #[must_use]
    pub fn running(&self) -> usize {
        let state = self.0.lock();
        state.places - state.free
    }

    /// How many callers wait now.
    #[must_use]
    pub fn queued(&self) -> usize {
        self.0.lock().queue.len()
    }

    /// How many callers have got [`Busy`] so far.
    #[must_use]
    pub fn refused(&self) -> u64 {
        self.0.lock().refused
    }

    /// A line whose buffers are as large as hashes with these settings need.
    fn with_buffers(places: usize, waiting: usize, config: &Config<'_>) -> Line {
        let places = places.max(1);
        let buffers = Buffers::new(&Settings::of(config), places);
        let queue = VecDeque::new();
        let state = Mutex::new(State { places, free: places, refused: 0, next_ticket: 0, queue, is_watched: false });
        Line(Arc::new(Shared { state, waiting, buffers }))
    }
}

impl Place {
    /// Calls that compute in the line's buffers.
    pub fn run(&mut self) -> Run<'_> {
        Run::with_kept(&self.line.buffers)
    }
}

impl Shared {
    /// The state, also after a panic: no panic leaves it half changed.
    fn lock(&self) -> MutexGuard<'_, State> {
        self.state.lock().unwrap_or_else(|poisoned| poisoned.into_inner())
    }

    /// Takes back a place, and gives it to the first in the queue, if there is one.
    fn leave(self: &Arc<Self>) {
        let mut state = self.lock();
        let is_unwatched = !mem::replace(&mut state.is_watched, true);
        let next = state.queue.pop_front();
        state.free += usize::from(next.is_none());
        drop(state);
        if is_unwatched {
            self.watch(); // first, since a waker may panic
        }
        if let Some((_, waker)) = next {
            waker.wake();
        }
    }

    /// Starts the thread that frees idle buffers. If the system denies it, the next caller who leaves tries again.
    fn watch(self: &Arc<Self>) {
        let line = Arc::downgrade(self);
        let watcher = thread::Builder::new().name("argon2 buffers".to_owned()).spawn(move || free_idle(&line));
        if watcher.is_err() {
            self.lock().is_watched = false;
        }
    }

    /// Frees what has been idle for too long, and returns when to look again, unless nobody has to.
    fn free_idle(&self) -> Option<Duration> {
        self.lock().is_watched = false; // (first: a caller who leaves meanwhile has its buffer watched)
        let next = self.buffers.free_idle()?;
        (!mem::replace(&mut self.lock().is_watched, true)).then_some(next)
    }
}

/// Frees idle buffers until none is idle or the line is gone.
fn free_idle(line: &Weak<Shared>) {
    let mut next = Some(IDLE);
    while let Some(time) = next {
        thread::sleep(time);
        next = line.upgrade().and_then(|line| line.free_idle());
    }
}

struct Unpark(thread::Thread);

impl Wake for Unpark {
    fn wake(self: Arc<Self>) {
        self.0.unpark();
    }
}

impl Drop for Place {
    fn drop(&mut self) {
        self.line.leave();
    }
}

impl Future for Enter {
    type Output = Result<Place, Busy>;

    fn poll(mut self: Pin<&mut Self>, context: &mut Context<'_>) -> Poll<Self::Output> {
        let line = Arc::clone(&self.line);
        // (the waker that remains is dropped after the lock: it may own a task that has a place of this line)
        let mut waker = context.waker().clone();
        let mut state = line.lock();
        match self.ticket {
            Some(ticket) => {
                if let Some(entry) = state.queue.iter_mut().find(|entry| entry.0 == ticket) {
                    mem::swap(&mut entry.1, &mut waker);
                    return Poll::Pending;
                } // otherwise a caller who left has given its place to this one
            }
            None if state.free > 0 => state.free -= 1,
            None if state.queue.len() >= line.waiting => {
                state.refused += 1;
                return Poll::Ready(Err(Busy));
            }
            None => {
                let ticket = state.next_ticket;
                state.queue.push_back((ticket, waker));
                state.next_ticket += 1;
                self.ticket = Some(ticket);
                return Poll::Pending;
            }
        }
        self.ticket = None;
        drop(state);
        Poll::Ready(Ok(Place { line }))
    }
}

impl Drop for Enter {
    fn drop(&mut self) {
        if let Some(ticket) = self.ticket {
            let mut state = self.line.lock();
            let index = state.queue.iter().position(|entry| entry.0 == ticket);
            let entry = index.and_then(|index| state.queue.remove(index));
            drop(state); // before the waker, which may own a task that has a place of this line
            if entry.is_none() {
                self.line.leave();
            }
        }
    }
}

#[cfg(test)]
mod tests;
