use crate::ffi::{self, Buffer, Settings, OUT_OF_MEMORY};
use std::fmt;

/// A reusable buffer for the calls of [`Run::over`](crate::Run::over).
///
/// It grows to what a call needs, and never shrinks. Before it grows, its old memory is freed, so that a call never
/// holds more memory than it would without the buffer. Settings that are rejected leave it unchanged. If an allocation
/// fails, the buffer is empty, and the next call can allocate it anew. Each call clears the buffer before it returns,
/// and [`drop`] clears and frees it.
///
/// # Examples
///
/// ```
/// use proved_argon2::{Config, Error, Memory, Run};
///
/// let mut memory = Memory::new();
/// let mut run = Run::new().over(&mut memory);
/// let text = run.hash_encoded(b"password", b"somesalt", &Config::default())?;
/// assert!(run.verify_encoded(&text, b"password", &[], &[])?);
/// drop(run);
/// assert_eq!(memory.size(), 19 << 20);
/// # Ok::<(), Error>(())
/// ```
#[derive(Default)]
pub struct Memory {
    buffer: Buffer,
}

impl Memory {
    /// An empty buffer, which allocates nothing yet.
    #[must_use]
    pub fn new() -> Memory {
        Memory::default()
    }

    /// How many bytes it holds.
    #[must_use]
    pub fn size(&self) -> usize {
        self.buffer.length()
    }

    /// Makes a call in this buffer, and returns its number. If the buffer is too small, it is replaced by one that fits
    /// the settings, and the call is made again. Calls report a buffer as too small only if they accept the
    /// settings.
    pub(crate) fn call(
        &mut self,
        settings: impl FnOnce() -> Settings,
        mut call: impl FnMut(&mut Buffer) -> u32,
    ) -> u32 {
        let number = call(&mut self.buffer);
        if number != OUT_OF_MEMORY || !self.grow(&settings()) {
            return number;
        }
        call(&mut self.buffer)
    }

    /// Replaces a buffer that is too small for the settings. Returns whether it did.
    pub(crate) fn grow(&mut self, settings: &Settings) -> bool {
        if self.size() as u64 >= ffi::memory_len(settings) {
            return false;
        }
        self.buffer = Buffer::default();
        self.buffer = Buffer::of(settings);
        self.size() > 0
    }
}

impl fmt::Debug for Memory {
    fn fmt(&self, f: &mut fmt::Formatter<'_>) -> fmt::Result {
        f.debug_struct("Memory").field("size", &self.size()).finish()
    }
}
