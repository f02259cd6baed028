//! Dumps of colours: the cells so far, and the first line at fault.

use std::io::Read;

use crate::Exit;
use crate::lines::{Block, Cursor, Input};

const CELL_LIMIT: u64 = u32::MAX as u64;
const COMP_LIMIT: u64 = 255;

/// A name as a number that is ordered as names are: that of an object or a map, or, in front of its target's, the
/// compartment of a wrapper, counted from 1.
type Name = u64;

fn target(name: Name) -> Option<Name> {
    (name > CELL_LIMIT).then_some(name & CELL_LIMIT)
}

/// Why a line is not taken.
enum Wrong {
    Bad,
    Fault(&'static str),
}

enum Line {
    Cell(Name, bool),
    Edge(Name, Name),
    Weak(Name, Name, Name),
    End,
}

impl Line {
    fn part(&self) -> u8 {
        match self {
            Line::Cell(..) => 0,
            Line::Edge(..) => 1,
            Line::Weak(..) => 2,
            Line::End => 3,
        }
    }
}

impl Cursor<'_> {
    #[inline(always)]
    fn object(&mut self) -> Option<Name> {
        self.number(CELL_LIMIT)
    }

    #[inline(always)]
    fn name(&mut self) -> Option<Name> {
        let first = self.number(CELL_LIMIT)?;
        if self.take(b":").is_none() {
            return Some(first);
        }
        let target = self.object()?;
        (first <= COMP_LIMIT).then_some((first + 1) << 32 | target)
    }

    /// The line that begins here; the cursor then stands behind the line feed.
    #[inline(always)]
    fn dump_line(&mut self) -> Option<Line> {
        let line = if self.take(b"cell ").is_some() {
            let name = self.name()?;
            let is_black = self.take(b" b").is_some();
            if !is_black {
                self.take(b" g")?;
            }
            Line::Cell(name, is_black)
        } else if self.take(b"edge ").is_some() {
            let object = self.object()?;
            self.take(b" ")?;
            Line::Edge(object, self.name()?)
        } else if self.take(b"weak ").is_some() {
            let map = self.object()?;
            self.take(b" ")?;
            let key = self.name()?;
            self.take(b" ")?;
            Line::Weak(map, key, self.name()?)
        } else {
            self.take(b"end")?;
            Line::End
        };
        self.take(b"\n")?;
        Some(line)
    }
}

#[derive(Default)]
struct Checker {
    /// Each a name and behind it a bit, whether the cell is black. They ascend.
    cells: Vec<u64>,
    part: u8,
    edges: u64,
    entries: u64,
    lines: u64,
}

impl Checker {
    fn is_black(&self, name: Name) -> Result<bool, Wrong> {
        match self.cells.binary_search_by_key(&name, |cell| cell >> 1) {
            Ok(at) => Ok(self.cells[at] & 1 == 1),
            Err(_) => Err(Wrong::Fault("absent")),
        }
    }

    fn add_cell(&mut self, name: Name, is_black: bool) -> Result<(), Wrong> {
        if self.cells.last().is_some_and(|last| last >> 1 >= name) {
            return Err(Wrong::Fault("order"));
        }
        if let Some(target) = target(name)
            && !self.is_black(target)?
            && is_black
        {
            return Err(Wrong::Fault("gray"));
        }
        self.cells.push(name << 1 | u64::from(is_black));
        Ok(())
    }

    fn add_edge(&mut self, object: Name, name: Name) -> Result<(), Wrong> {
        let (from, to) = (self.is_black(object)?, self.is_black(name)?);
        if from && !to {
            return Err(Wrong::Fault("gray"));
        }
        self.edges += 1;
        Ok(())
    }

    fn add_entry(&mut self, map: Name, key: Name, value: Name) -> Result<(), Wrong> {
        let (of_map, of_key, of_value) = (self.is_black(map)?, self.is_black(key)?, self.is_black(value)?);
        let has_black_target = || target(key).is_some_and(|name| matches!(self.is_black(name), Ok(true)));
        if of_map && (of_key && !of_value || !of_key && has_black_target()) {
            return Err(Wrong::Fault("gray"));
        }
        self.entries += 1;
        Ok(())
    }

    #[inline(always)]
    fn line(&mut self, cursor: &mut Cursor) -> Result<(), Wrong> {
        let line = cursor.dump_line().ok_or(Wrong::Bad)?;
        if line.part() < self.part || self.part == 3 {
            return Err(Wrong::Bad);
        }
        self.part = line.part();
        self.lines += 1;
        match line {
            Line::Cell(name, is_black) => self.add_cell(name, is_black),
            Line::Edge(object, name) => self.add_edge(object, name),
            Line::Weak(map, key, value) => self.add_entry(map, key, value),
            Line::End => Ok(()),
        }
    }
}

fn fault(line: u64, kind: &str) -> Exit {
    println!("fault {line} {kind}");
    Exit::Unsound
}

/// Judges a dump, and writes what is to be said of it.
pub fn check(source: impl Read) -> Exit {
    let mut input = Input::new(source);
    let mut checker = Checker::default();
    loop {
        let lines = match input.next() {
            Ok(Block::Lines(lines)) => lines,
            Ok(Block::TooLong) => return Exit::BadLine(checker.lines + 1),
            Ok(Block::End) => break,
            Err(_) => return Exit::ReadFault,
        };
        let mut cursor = Cursor::new(lines, 0);
        while cursor.at < lines.len() {
            match checker.line(&mut cursor) {
                Ok(()) => {}
                Err(Wrong::Bad) => return Exit::BadLine(checker.lines + 1),
                Err(Wrong::Fault(kind)) => return fault(checker.lines, kind),
            }
        }
    }
    if checker.part < 3 {
        return fault(checker.lines + 1, "cut");
    }
    println!("ok {} {} {}", checker.cells.len(), checker.edges, checker.entries);
    Exit::Done
}
