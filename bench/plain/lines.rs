//! Reading: blocks of the input, and the command that a line stands for.

use std::io::{self, Read};
use std::ops::Range;

const LONGEST_LINE: usize = 255;
const BLOCK: usize = 1 << 16;

/// A command of the language. Registers, gray slots, zones, compartments and fields are their numbers; lists of zones
/// are sets.
pub enum Command {
    Zone,
    Comp { zone: u8 },
    New { to: u8, comp: u8, fields: u8 },
    Map { to: u8, comp: u8 },
    Get { to: u8, from: u8, field: u8 },
    Set { of: u8, field: u8, value: Option<u8> },
    Wrap { to: u8, from: u8, comp: u8 },
    Unwrap { to: u8, from: u8 },
    Copy { to: u8, from: u8 },
    Drop { register: u8 },
    Hold { slot: u8, register: u8 },
    Release { slot: u8 },
    Expose { to: u8, slot: u8 },
    Put { map: u8, key: u8, value: u8 },
    Del { map: u8, key: u8 },
    Find { to: u8, map: u8, key: u8 },
    Gc { zones: u64 },
    Slice { units: u32 },
    Finish,
    Collect { zones: u64 },
    Colours,
}

/// A place in the text of a line. Its end is a line feed, which no word contains, so reading stops there.
pub struct Cursor<'a> {
    text: &'a [u8],
    pub at: usize,
}

impl<'a> Cursor<'a> {
    pub fn new(text: &'a [u8], at: usize) -> Self {
        Cursor { text, at }
    }

    #[inline(always)]
    fn byte(&self) -> u8 {
        self.text.get(self.at).copied().unwrap_or(b'\n')
    }

    /// Passes these bytes when they come next.
    #[inline(always)]
    pub fn take(&mut self, bytes: &[u8]) -> Option<()> {
        let rest = self.text.get(self.at..)?;
        rest.starts_with(bytes).then(|| self.at += bytes.len())
    }

    #[inline(always)]
    fn digit(&self) -> Option<u64> {
        let digit = self.byte().wrapping_sub(b'0');
        (digit < 10).then_some(u64::from(digit))
    }

    /// A number without leading zeros, up to a limit.
    #[inline(always)]
    pub fn number(&mut self, limit: u64) -> Option<u64> {
        let mut number = self.digit()?;
        self.at += 1;
        if number != 0 {
            while let Some(digit) = self.digit() {
                number = number * 10 + digit;
                if number > limit {
                    return None;
                }
                self.at += 1;
            }
        }
        (number <= limit).then_some(number)
    }

    #[inline(always)]
    fn small(&mut self, limit: u8) -> Option<u8> {
        self.number(u64::from(limit)).map(|number| number as u8)
    }

    #[inline(always)]
    fn register(&mut self) -> Option<u8> {
        self.take(b" r")?;
        self.small(15)
    }

    #[inline(always)]
    fn slot(&mut self) -> Option<u8> {
        self.take(b" g")?;
        self.small(63)
    }

    #[inline(always)]
    fn zone(&mut self) -> Option<u8> {
        self.take(b" ")?;
        self.small(63)
    }

    #[inline(always)]
    fn comp(&mut self) -> Option<u8> {
        self.take(b" ")?;
        self.small(255)
    }

    #[inline(always)]
    fn field(&mut self) -> Option<u8> {
        self.take(b" ")?;
        self.small(7)
    }

    /// One or more zones, each greater than the one before.
    fn zones(&mut self) -> Option<u64> {
        let mut zone = self.zone()?;
        let mut zones = 1 << zone;
        while self.byte() == b' ' {
            let next = self.zone()?;
            if next <= zone {
                return None;
            }
            zone = next;
            zones |= 1 << zone;
        }
        Some(zones)
    }

    #[inline(always)]
    fn value_or_null(&mut self) -> Option<Option<u8>> {
        match self.take(b" -") {
            Some(()) => Some(None),
            None => self.register().map(Some),
        }
    }

    /// The command of the line that begins here; the cursor then stands behind the line feed.
    #[inline(always)]
    pub fn command(&mut self) -> Option<Command> {
        let command = self.words()?;
        self.take(b"\n")?;
        Some(command)
    }

    #[inline(always)]
    fn words(&mut self) -> Option<Command> {
        match self.byte() {
            b'g' => self.words_of_g(),
            b's' => self.words_of_s(),
            b'c' => self.words_of_c(),
            b'n' => {
                self.take(b"new")?;
                let (to, comp) = (self.register()?, self.comp()?);
                self.take(b" ")?;
                Some(Command::New { to, comp, fields: self.small(8)? })
            }
            b'd' => self.words_of_d(),
            b'f' => self.words_of_f(),
            b'w' => {
                self.take(b"wrap")?;
                Some(Command::Wrap { to: self.register()?, from: self.register()?, comp: self.comp()? })
            }
            b'u' => {
                self.take(b"unwrap")?;
                Some(Command::Unwrap { to: self.register()?, from: self.register()? })
            }
            b'p' => {
                self.take(b"put")?;
                Some(Command::Put { map: self.register()?, key: self.register()?, value: self.register()? })
            }
            b'm' => {
                self.take(b"map")?;
                Some(Command::Map { to: self.register()?, comp: self.comp()? })
            }
            b'h' => {
                self.take(b"hold")?;
                Some(Command::Hold { slot: self.slot()?, register: self.register()? })
            }
            b'r' => {
                self.take(b"release")?;
                Some(Command::Release { slot: self.slot()? })
            }
            b'e' => {
                self.take(b"expose")?;
                Some(Command::Expose { to: self.register()?, slot: self.slot()? })
            }
            b'z' => {
                self.take(b"zone")?;
                Some(Command::Zone)
            }
            _ => None,
        }
    }

    #[inline(always)]
    fn words_of_g(&mut self) -> Option<Command> {
        if self.take(b"get").is_some() {
            Some(Command::Get { to: self.register()?, from: self.register()?, field: self.field()? })
        } else {
            self.take(b"gc")?;
            Some(Command::Gc { zones: self.zones()? })
        }
    }

    #[inline(always)]
    fn words_of_s(&mut self) -> Option<Command> {
        if self.take(b"set").is_some() {
            Some(Command::Set { of: self.register()?, field: self.field()?, value: self.value_or_null()? })
        } else {
            self.take(b"slice ")?;
            Some(Command::Slice { units: self.number(u64::from(u32::MAX))? as u32 })
        }
    }

    #[inline(always)]
    fn words_of_c(&mut self) -> Option<Command> {
        if self.take(b"copy").is_some() {
            Some(Command::Copy { to: self.register()?, from: self.register()? })
        } else if self.take(b"collect").is_some() {
            Some(Command::Collect { zones: self.zones()? })
        } else if self.take(b"comp").is_some() {
            Some(Command::Comp { zone: self.zone()? })
        } else {
            self.take(b"colours")?;
            Some(Command::Colours)
        }
    }

    #[inline(always)]
    fn words_of_d(&mut self) -> Option<Command> {
        if self.take(b"drop").is_some() {
            Some(Command::Drop { register: self.register()? })
        } else {
            self.take(b"del")?;
            Some(Command::Del { map: self.register()?, key: self.register()? })
        }
    }

    #[inline(always)]
    fn words_of_f(&mut self) -> Option<Command> {
        if self.take(b"find").is_some() {
            Some(Command::Find { to: self.register()?, map: self.register()?, key: self.register()? })
        } else {
            self.take(b"finish")?;
            Some(Command::Finish)
        }
    }
}

/// The input, block by block. A line that the end of a block cuts is kept for the next one.
pub struct Input<R> {
    source: R,
    buffer: Vec<u8>,
    /// The part of the buffer that was read and not given yet: the front of a line.
    kept: Range<usize>,
    has_ended: bool,
}

/// What comes next in the input.
pub enum Block<'a> {
    /// Whole lines, each with its line feed; the last one of the input may have got it here.
    Lines(&'a [u8]),
    /// More bytes than a line may have.
    TooLong,
    End,
}

impl<R: Read> Input<R> {
    pub fn new(source: R) -> Self {
        Input { source, buffer: vec![0; LONGEST_LINE + BLOCK], kept: 0..0, has_ended: false }
    }

    pub fn next(&mut self) -> io::Result<Block<'_>> {
        while !self.has_ended {
            if self.kept.len() > LONGEST_LINE {
                return Ok(Block::TooLong);
            }
            self.buffer.copy_within(self.kept.clone(), 0);
            self.kept = 0..self.kept.len();
            let searched = self.kept.end;
            let count = read_some(&mut self.source, &mut self.buffer[searched..searched + BLOCK])?;
            if count == 0 {
                self.has_ended = true;
                return Ok(self.last_line());
            }
            self.kept.end += count;
            if let Some(last) = self.buffer[searched..self.kept.end].iter().rposition(|byte| *byte == b'\n') {
                self.kept.start = searched + last + 1;
                return Ok(Block::Lines(&self.buffer[..self.kept.start]));
            }
        }
        Ok(Block::End)
    }

    fn last_line(&mut self) -> Block<'_> {
        let end = self.kept.end;
        if end == 0 {
            return Block::End;
        }
        self.buffer[end] = b'\n';
        Block::Lines(&self.buffer[..=end])
    }
}

fn read_some(source: &mut impl Read, into: &mut [u8]) -> io::Result<usize> {
    loop {
        match source.read(into) {
            Err(fault) if fault.kind() == io::ErrorKind::Interrupted => {}
            read => return read,
        }
    }
}
