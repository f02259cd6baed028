//! Writing: a buffer for the answers, and the texts of numbers, zones and names.

use std::io::{self, StdoutLock, Write};

use crate::sets::members;

const ROOM: usize = 1 << 16;
/// A number has at most 20 digits.
const LONGEST_NUMBER: usize = 20;

pub struct Output {
    sink: StdoutLock<'static>,
    buffer: Vec<u8>,
    has_failed: bool,
}

/// The names of a list, in any order until they are written.
#[derive(Default)]
pub struct Names {
    numbers: Vec<u32>,
    /// The compartment of a wrapper above the number of its target.
    wrappers: Vec<u64>,
}

impl Names {
    pub fn clear(&mut self) {
        self.numbers.clear();
        self.wrappers.clear();
    }

    pub fn add(&mut self, number: u32) {
        self.numbers.push(number);
    }

    pub fn add_wrapper(&mut self, comp: u8, target: u32) {
        self.wrappers.push(u64::from(comp) << 32 | u64::from(target));
    }

    /// Cells mostly lie in the order of their names, and then nothing is to be sorted.
    fn sort(&mut self) {
        if !self.numbers.is_sorted() {
            self.numbers.sort_unstable();
        }
        if !self.wrappers.is_sorted() {
            self.wrappers.sort_unstable();
        }
    }
}

impl Output {
    pub fn new() -> Self {
        Output { sink: io::stdout().lock(), buffer: Vec::with_capacity(ROOM + 512), has_failed: false }
    }

    /// Hands on all that is held back.
    pub fn hand_on(&mut self) {
        if !self.has_failed {
            self.has_failed = self.sink.write_all(&self.buffer).and_then(|()| self.sink.flush()).is_err();
        }
        self.buffer.clear();
    }

    /// Hands on what is held back when that is much.
    #[inline(always)]
    pub fn hand_on_much(&mut self) {
        if self.buffer.len() >= ROOM {
            self.hand_on();
        }
    }

    /// Whether the sink has failed; nothing is written after that.
    pub fn has_failed(&self) -> bool {
        self.has_failed
    }

    #[inline(always)]
    pub fn text(&mut self, text: &str) {
        self.buffer.extend_from_slice(text.as_bytes());
    }

    #[inline(always)]
    pub fn line(&mut self, text: &str) {
        self.text(text);
        self.end_line();
    }

    #[inline(always)]
    pub fn end_line(&mut self) {
        self.buffer.push(b'\n');
    }

    #[inline(always)]
    pub fn number(&mut self, number: u64) {
        let mut digits = [0; LONGEST_NUMBER];
        let mut at = LONGEST_NUMBER;
        let mut rest = number;
        loop {
            at -= 1;
            digits[at] = b'0' + (rest % 10) as u8;
            rest /= 10;
            if rest == 0 {
                break;
            }
        }
        self.buffer.extend_from_slice(&digits[at..]);
    }

    #[inline(always)]
    pub fn wrapper(&mut self, comp: u8, target: u32) {
        self.number(u64::from(comp));
        self.buffer.push(b':');
        self.number(u64::from(target));
    }

    /// A word and a number on a line.
    #[inline(always)]
    pub fn numbered_line(&mut self, text: &str, number: u64) {
        self.text(text);
        self.number(number);
        self.end_line();
    }

    /// The zones of a set, ascending, a space before each.
    pub fn zones(&mut self, zones: u64) {
        for zone in members(zones) {
            self.buffer.push(b' ');
            self.number(zone as u64);
        }
    }

    /// The names of a list, ascending, a space before each; or `-` when there is none.
    pub fn names(&mut self, names: &mut Names) {
        if names.numbers.is_empty() && names.wrappers.is_empty() {
            self.text(" -");
        }
        names.sort();
        for number in &names.numbers {
            self.buffer.push(b' ');
            self.number(u64::from(*number));
            self.hand_on_much();
        }
        for wrapper in &names.wrappers {
            self.buffer.push(b' ');
            self.wrapper((wrapper >> 32) as u8, *wrapper as u32);
            self.hand_on_much();
        }
        self.end_line();
    }
}
