//! The program that gczone is measured against: `gczone run` in plain Rust, with the standard library alone.
//!
//! It serves the same commands and writes the same bytes (docs/TRACE.md). Only where commands come between slices may
//! the numbers of units and the moments of reports differ. It is written for speed, and nothing of it is proved. It has
//! no exit for want of memory.
//!
//!     lines       reads blocks, and the command of each line
//!     commands    does each command, with its barriers
//!     heap        cells in arenas, wrappers, entries of weak maps
//!     collector   barriers, marking, groups and sweeping, by units
//!     pile        the cells to be followed, fetched ahead
//!     groups      the components of the edges between zones
//!     output      holds answers back, and writes numbers and names
//!     sets        sets of numbers as bits
//!     dumps       under the word `check`, the verdict on a dump of colours

mod collector;
mod commands;
mod dumps;
mod groups;
mod heap;
mod lines;
mod output;
mod pile;
mod sets;

use std::io::{self, Read};
use std::process::ExitCode;

use collector::Collector;
use lines::{Block, Cursor, Input};
use output::Output;

const LINE_LIMIT: u64 = u32::MAX as u64;

/// How a run ends; the numbers are the exit statuses.
enum Exit {
    Done,
    BadLine(u64),
    ReadFault,
    WriteFault,
    TooManyLines,
    Unsound,
}

impl Exit {
    fn report(&self) -> u8 {
        match self {
            Exit::Done => 0,
            Exit::BadLine(line) => {
                eprintln!("gczone: line {line}: bad line");
                3
            }
            Exit::ReadFault => {
                eprintln!("gczone: read failed");
                4
            }
            Exit::WriteFault => {
                eprintln!("gczone: write failed");
                5
            }
            Exit::TooManyLines => {
                eprintln!("gczone: too many lines");
                7
            }
            Exit::Unsound => 8,
        }
    }
}

/// Answers some whole lines. `done` counts the lines.
fn answer_lines(lines: &[u8], done: &mut u64, collector: &mut Collector, output: &mut Output) -> Option<Exit> {
    let mut cursor = Cursor::new(lines, 0);
    while cursor.at < lines.len() {
        if *done == LINE_LIMIT {
            return Some(Exit::TooManyLines);
        }
        let Some(command) = cursor.command() else {
            return Some(Exit::BadLine(*done + 1));
        };
        collector.answer(&command, output);
        *done += 1;
        output.hand_on_much();
        if output.has_failed() {
            return Some(Exit::WriteFault);
        }
    }
    None
}

/// Answers the lines of a source. Before it asks for more, all answers are handed on.
fn replay(source: impl Read, output: &mut Output) -> Exit {
    let mut input = Input::new(source);
    let mut collector = Collector::new();
    let mut done = 0;
    let exit = loop {
        match input.next() {
            Ok(Block::Lines(lines)) => {
                if let Some(exit) = answer_lines(lines, &mut done, &mut collector, output) {
                    break exit;
                }
            }
            Ok(Block::TooLong) => break Exit::BadLine(done + 1),
            Ok(Block::End) => break Exit::Done,
            Err(_) => break Exit::ReadFault,
        }
        output.hand_on();
        if output.has_failed() {
            return Exit::WriteFault;
        }
    };
    output.hand_on();
    if output.has_failed() { Exit::WriteFault } else { exit }
}

fn main() -> ExitCode {
    let words: Vec<String> = std::env::args().skip(1).collect();
    let source = io::stdin().lock();
    let exit = match words.iter().map(String::as_str).collect::<Vec<_>>()[..] {
        ["run"] => replay(source, &mut Output::new()),
        ["check"] => dumps::check(source),
        _ => {
            eprintln!("gczone: usage: gczone run [--helpers N] | gczone storm SEED LINES [--helpers N] | gczone check");
            return ExitCode::from(2);
        }
    };
    ExitCode::from(exit.report())
}
