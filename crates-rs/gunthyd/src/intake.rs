//! A queue above the pool: a line of 16 handles for each of 256 peers, served in turn.
//!
//! ```
//! use gunthyd::intake::{Intake, Served};
//!
//! let mut queue = Intake::new();
//! queue.put(3, 10).unwrap();
//! queue.put(3, 11).unwrap();
//! queue.put(0, 12).unwrap();
//! assert_eq!(queue.turn(), Some(Served { line: 0, handle: 12 }));
//! assert_eq!(queue.turn(), Some(Served { line: 3, handle: 10 }));
//! assert_eq!(queue.put(256, 13).unwrap_err().number(), 32);
//! ```

/// How many lines there are; they are numbered from 0.
pub const LINES: usize = 256;
/// How many handles a line holds at most.
pub const PLACES: usize = 16;
/// The words of a line: head, tail, places.
pub const LINE_WORDS: usize = 18;
/// Where the line served last stands.
pub const LAST_AT: usize = 4608;
/// The words of a queue.
pub const QUEUE_WORDS: usize = 4609;

const ANSWER_WORDS: usize = 2;
const SERVED: u64 = 1;

extern "C" {
    fn gunthyd_intake_start(queue: *mut u64, queue_len: usize) -> u64;
    fn gunthyd_intake_put(queue: *mut u64, queue_len: usize, line: u64, handle: u64) -> u64;
    fn gunthyd_intake_turn(queue: *mut u64, queue_len: usize, answer: *mut u64, answer_len: usize) -> u64;
}

/// A handle that a turn handed out, and the line that it stood in.
#[derive(Clone, Copy, Debug, PartialEq, Eq)]
pub struct Served {
    pub line: u64,
    pub handle: u64,
}

/// A put that was refused, by its number: 32, the line already holds 16 handles, or its number is above 255. Nothing was stored.
#[derive(Clone, Copy, Debug, PartialEq, Eq)]
pub struct Refused(u64);

impl Refused {
    pub fn number(self) -> u64 {
        self.0
    }
}

impl std::fmt::Display for Refused {
    fn fmt(&self, f: &mut std::fmt::Formatter<'_>) -> std::fmt::Result {
        write!(f, "refused {}: the line is full, or there is no line of this number", self.0)
    }
}

impl std::error::Error for Refused {}

/// The queue, with memory of its own.
///
/// A handle with k before it in its line is handed out within 256 × (k + 1) turns, however the others fill theirs, and each line's handles
/// come out in the order stored, once each: proved for every list of puts and turns (docs/THEOREM.md).
#[derive(Clone)]
pub struct Intake {
    words: Box<[u64]>,
}

impl Intake {
    /// An empty queue. Line 255 counts as the one served last.
    pub fn new() -> Intake {
        let mut words = vec![0; QUEUE_WORDS].into_boxed_slice();
        // SAFETY: the pointer and the length are those of one slice, lent for the call.
        let said = unsafe { gunthyd_intake_start(words.as_mut_ptr(), words.len()) };
        debug_assert_eq!(said, 0);
        Intake { words }
    }

    /// A queue out of words that were kept. Words of any kind are some queue; the theorem speaks of those that a queue's own calls left.
    pub fn from_words(words: Box<[u64; QUEUE_WORDS]>) -> Intake {
        Intake { words }
    }

    /// The words, to be kept.
    pub fn words(&self) -> &[u64] {
        &self.words
    }

    /// Stores a handle, any number, at the end of a line.
    pub fn put(&mut self, line: u64, handle: u64) -> Result<(), Refused> {
        // SAFETY: as in `new`.
        match unsafe { gunthyd_intake_put(self.words.as_mut_ptr(), self.words.len(), line, handle) } {
            0 => Ok(()),
            number => Err(Refused(number)),
        }
    }

    /// Serves the next line that is not empty, in circular order after the one served last: its oldest handle. Nothing changes where every
    /// line is empty.
    pub fn turn(&mut self) -> Option<Served> {
        let mut answer = [0; ANSWER_WORDS];
        // SAFETY: as in `new`, and the answer is memory of its own.
        let said = unsafe { gunthyd_intake_turn(self.words.as_mut_ptr(), self.words.len(), answer.as_mut_ptr(), answer.len()) };
        let [handle, line] = answer;
        (said == SERVED).then_some(Served { line, handle })
    }
}

impl Default for Intake {
    fn default() -> Intake {
        Intake::new()
    }
}
