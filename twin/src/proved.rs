//! The proved replica, which is a library with a C interface, behind one safe type.

use crate::replica::Limits;

/// The length of the longest answer: eight puts of 226 bytes, each with its marker and length.
pub const LONGEST_ANSWER: usize = 8 * (1 + 8 + 226) + 2;

unsafe extern "C" {
    fn motsvelba_open(
        memory: *mut u64,
        words: usize,
        replicas: usize,
        keys: usize,
        log: usize,
        waiting: usize,
        me: usize,
    ) -> i64;

    fn motsvelba_call(
        memory: *mut u64,
        words: usize,
        event: *const u8,
        event_length: usize,
        answer: *mut u8,
        answer_length: usize,
    ) -> i64;
}

/// A replica in memory of its own.
pub struct Proved {
    memory: Vec<u64>,
}

impl Proved {
    /// Whatever replica stands in the memory, or none: any memory may be given.
    pub fn over(memory: Vec<u64>) -> Self {
        Proved { memory }
    }

    /// A new replica in exactly the memory that it needs.
    pub fn new(limits: Limits, me: usize) -> Self {
        let mut replica = Proved::over(vec![0; limits.words()]);
        assert!(replica.open(limits, me), "the limits are in range");
        replica
    }

    /// Opens a new replica in the memory; `false` if that is refused.
    pub fn open(&mut self, limits: Limits, me: usize) -> bool {
        // SAFETY: the pointer and the length are those of one live, exclusively borrowed slice.
        let outcome = unsafe {
            motsvelba_open(
                self.memory.as_mut_ptr(),
                self.memory.len(),
                limits.replicas,
                limits.keys,
                limits.log,
                limits.waiting,
                me,
            )
        };
        match outcome {
            0 => true,
            -1 => false,
            other => panic!("an opening returned {other}"),
        }
    }

    /// Lets an event happen and writes the answer. `None`, and nothing happens, if there is less
    /// room than the longest answer needs.
    pub fn call<'a>(&mut self, event: &[u8], room: &'a mut [u8]) -> Option<&'a [u8]> {
        // SAFETY: each pointer and length are those of one live slice, and those that are written
        // are exclusively borrowed.
        let length = unsafe {
            motsvelba_call(
                self.memory.as_mut_ptr(),
                self.memory.len(),
                event.as_ptr(),
                event.len(),
                room.as_mut_ptr(),
                room.len(),
            )
        };
        usize::try_from(length).ok().map(|length| &room[..length])
    }

    pub fn into_memory(self) -> Vec<u64> {
        self.memory
    }

    pub fn memory(&self) -> &[u64] {
        &self.memory
    }
}
