//! Document 02's queue as one would write it in Rust.
use std::collections::VecDeque;

pub const LINES: usize = 256;
pub const PLACES: usize = 16;

#[derive(Clone)]
pub struct Model {
    pub lines: Vec<VecDeque<u64>>,
    pub last: usize,
}

impl Model {
    pub fn new(last: usize) -> Model {
        Model { lines: vec![VecDeque::with_capacity(PLACES); LINES], last }
    }

    /// Whether the handle was stored.
    pub fn put(&mut self, line: u64, handle: u64) -> bool {
        match self.lines.get_mut(usize::try_from(line).unwrap_or(LINES)) {
            Some(held) if held.len() < PLACES => {
                held.push_back(handle);
                true
            }
            _ => false,
        }
    }

    /// The line that is served, and its oldest handle.
    pub fn turn(&mut self) -> Option<(u64, u64)> {
        let line = (1..=LINES).map(|step| (self.last + step) % LINES).find(|&line| !self.lines[line].is_empty())?;
        self.last = line;
        self.lines[line].pop_front().map(|handle| (line as u64, handle))
    }
}
