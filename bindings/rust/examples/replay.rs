//! Answers a trace of docs/TRACE.md by calls of the library, and prints what `gczone run` prints.
//!
//! With `--pin` the registers from r8 on are pinned roots: copy to one pins, copy from one loads, and drop unpins.

use std::io::{self, BufRead, BufWriter, Write};
use std::mem;

use gczone::{Compartment, Error, Event, Heap, Line, Name, Register, Result, Root, Slot, WeakSlot, Zone};
use gczone::{REGISTERS, SLOTS, WEAK_SLOTS};

struct Replay<W> {
    heap: Heap,
    out: W,
    /// The registers of the trace that are pinned roots: the root of each, if it holds a cell.
    pinned: Vec<Option<Root>>,
}

/// What a register of the trace is.
enum Place {
    Register(Register),
    /// A pinned root, by its place among them.
    Pinned(usize),
}

enum Ended {
    BadLine,
    Io(io::Error),
    Heap(Error),
}

impl From<io::Error> for Ended {
    fn from(error: io::Error) -> Ended {
        Ended::Io(error)
    }
}

fn word_of(error: Error) -> std::result::Result<&'static str, Ended> {
    Ok(match error {
        Error::Full => "full",
        Error::NoZone => "no-zone",
        Error::NoCompartment => "no-comp",
        Error::Empty => "empty",
        Error::Kind => "kind",
        Error::NoField => "no-field",
        Error::Cross => "cross",
        Error::Running => "running",
        Error::Marking => "marking",
        other => return Err(Ended::Heap(other)),
    })
}

fn list_of(names: &[Name]) -> String {
    match names {
        [] => "-".to_owned(),
        _ => names.iter().map(Name::to_string).collect::<Vec<_>>().join(" "),
    }
}

fn zones_text(zones: &[Zone]) -> String {
    zones.iter().map(|zone| zone.number().to_string()).collect::<Vec<_>>().join(" ")
}

fn event_text(event: &Event) -> String {
    match event {
        Event::Started => "started".to_owned(),
        Event::Groups(groups) => {
            format!("groups {}", groups.iter().map(|zones| zones_text(zones)).collect::<Vec<_>>().join(" | "))
        }
        Event::Ended { zones, grays, lost } => {
            let told = if lost.is_empty() { String::new() } else { format!("\ntold {}", list_of(lost)) };
            format!("ended {} gray {}{told}", zones_text(zones), list_of(grays))
        }
        Event::Swept { arena, freed } => format!("swept {arena} {}", list_of(freed)),
        Event::Stopped(zones) => format!("stopped {}", zones_text(zones)),
    }
}

fn line_text(line: &Line) -> String {
    match line {
        Line::Cell { name, black } => format!("cell {name} {}", if *black { "b" } else { "g" }),
        Line::Edge { object, name } => format!("edge {object} {name}"),
        Line::Entry { map, key, value } => format!("weak {map} {key} {value}"),
    }
}

fn name_text(name: Option<Name>) -> String {
    name.map_or_else(|| "null".to_owned(), |name| name.to_string())
}

fn number(word: &str) -> std::result::Result<usize, Ended> {
    word.trim_start_matches(['r', 'g', 'q']).parse().map_err(|_| Ended::BadLine)
}

fn register(word: &str) -> std::result::Result<Register, Ended> {
    REGISTERS.get(number(word)?).copied().ok_or(Ended::BadLine)
}

fn slot(word: &str) -> std::result::Result<Slot, Ended> {
    SLOTS.get(number(word)?).copied().ok_or(Ended::BadLine)
}

fn weak_slot(word: &str) -> std::result::Result<WeakSlot, Ended> {
    WEAK_SLOTS.get(number(word)?).copied().ok_or(Ended::BadLine)
}

fn zone(word: &str) -> std::result::Result<Zone, Ended> {
    Zone::new(byte(word)?).ok_or(Ended::BadLine)
}

fn zones(words: &[&str]) -> std::result::Result<Vec<Zone>, Ended> {
    words.iter().map(|word| zone(word)).collect()
}

fn compartment(word: &str) -> std::result::Result<Compartment, Ended> {
    Ok(Compartment::new(byte(word)?))
}

fn byte(word: &str) -> std::result::Result<u8, Ended> {
    number(word)?.try_into().map_err(|_| Ended::BadLine)
}

impl<W: Write> Replay<W> {
    /// Does the units of a slice, prints what they report, and returns how many they are.
    fn advance(&mut self, limit: u64) -> std::result::Result<u64, Ended> {
        let mut units = 0;
        while units < limit && self.heap.is_running() {
            let step = self.heap.advance(limit - units).map_err(Ended::Heap)?;
            units += step.units;
            if let Some(event) = step.event {
                writeln!(self.out, "{}", event_text(&event))?;
            }
            if step.finished {
                writeln!(self.out, "done")?;
            }
        }
        Ok(units)
    }

    fn slice(&mut self, limit: u64) -> std::result::Result<String, Ended> {
        if !self.heap.is_running() {
            return Ok("idle".to_owned());
        }
        Ok(format!("slice {}", self.advance(limit)?))
    }

    /// Gives the collection up, and prints what that reports.
    fn reset(&mut self) -> std::result::Result<String, Ended> {
        if !self.heap.is_running() {
            return Ok("idle".to_owned());
        }
        let events = self.heap.reset().map_err(Ended::Heap)?;
        for event in &events {
            writeln!(self.out, "{}", event_text(event))?;
        }
        if let Some(Event::Swept { .. }) = events.last() {
            writeln!(self.out, "done")?;
        }
        Ok("reset ok".to_owned())
    }

    fn place(&self, word: &str) -> std::result::Result<Place, Ended> {
        let index = number(word)?;
        match index.checked_sub(REGISTERS.len() - self.pinned.len()) {
            Some(at) if at < self.pinned.len() => Ok(Place::Pinned(at)),
            _ => register(word).map(Place::Register),
        }
    }

    fn copy(&mut self, to: Place, from: Place) -> Result<()> {
        match (to, from) {
            (Place::Register(to), Place::Register(from)) => self.heap.copy(to, from),
            (Place::Register(to), Place::Pinned(at)) => match &self.pinned[at] {
                Some(root) => self.heap.load(to, root),
                None => self.heap.empty(to),
            },
            (Place::Pinned(at), Place::Register(from)) => {
                self.empty(Place::Pinned(at))?;
                self.pinned[at] = match self.heap.pin(from) {
                    Err(Error::Empty) => None,
                    root => Some(root?),
                };
                Ok(())
            }
            (Place::Pinned(_), Place::Pinned(_)) => Err(Error::NotPinned),
        }
    }

    fn empty(&mut self, place: Place) -> Result<()> {
        match place {
            Place::Register(register) => self.heap.empty(register),
            Place::Pinned(at) => mem::take(&mut self.pinned[at]).map_or(Ok(()), |root| self.heap.unpin(root)),
        }
    }

    /// Answers a line. The answer is the last line that is printed.
    fn answer(&mut self, words: &[&str]) -> std::result::Result<Result<String>, Ended> {
        let ok = |()| "ok".to_owned();
        Ok(match *words {
            ["zone"] => self.heap.zone().map(|zone| format!("zone {}", zone.number())),
            ["comp", z] => self.heap.compartment(zone(z)?).map(|made| format!("comp {}", made.number())),
            ["new", r, c, n] => {
                let made = self.heap.object(register(r)?, compartment(c)?, byte(n)?);
                made.map(|name| format!("cell {name}"))
            }
            ["map", r, c] => self.heap.map(register(r)?, compartment(c)?).map(|name| format!("cell {name}")),
            ["get", r, s, f] => self.heap.get(register(r)?, register(s)?, byte(f)?).map(name_text),
            ["set", s, f, "-"] => self.heap.set(register(s)?, byte(f)?, None).map(ok),
            ["set", s, f, t] => self.heap.set(register(s)?, byte(f)?, Some(register(t)?)).map(ok),
            ["wrap", r, s, c] => self.heap.wrap(register(r)?, register(s)?, compartment(c)?).map(name_text),
            ["unwrap", r, s] => self.heap.unwrap(register(r)?, register(s)?).map(name_text),
            ["copy", r, s] => {
                let (to, from) = (self.place(r)?, self.place(s)?);
                self.copy(to, from).map(ok)
            }
            ["drop", r] => {
                let place = self.place(r)?;
                self.empty(place).map(ok)
            }
            ["hold", g, r] => self.heap.hold(slot(g)?, register(r)?).map(ok),
            ["release", g] => self.heap.release(slot(g)?).map(ok),
            ["expose", r, g] => self.heap.expose(register(r)?, slot(g)?).map(name_text),
            ["put", m, k, v] => self.heap.put(register(m)?, register(k)?, register(v)?).map(ok),
            ["del", m, k] => {
                let there = self.heap.delete(register(m)?, register(k)?);
                there.map(|there| if there { "ok" } else { "absent" }.to_owned())
            }
            ["find", r, m, k] => self.heap.find(register(r)?, register(m)?, register(k)?).map(name_text),
            ["weaken", q, r] => self.heap.weaken(weak_slot(q)?, register(r)?).map(ok),
            ["deref", r, q] => self.heap.deref(register(r)?, weak_slot(q)?).map(name_text),
            ["watch", r] => self.heap.watch(register(r)?).map(ok),
            ["unwatch", r] => {
                let was = self.heap.unwatch(register(r)?);
                was.map(|was| if was { "ok" } else { "absent" }.to_owned())
            }
            ["compact", z] => {
                let done = self.heap.compact(zone(z)?);
                done.map(|done| format!("compacted {} {}", done.moved, done.given_up))
            }
            ["gc", ref words @ ..] if !words.is_empty() => {
                self.heap.begin(&zones(words)?).map(|()| "gc ok".to_owned())
            }
            ["collect", ref words @ ..] if !words.is_empty() => match self.heap.begin(&zones(words)?) {
                Ok(()) => {
                    self.advance(u64::MAX)?;
                    Ok("collected".to_owned())
                }
                Err(error) => Err(error),
            },
            ["slice", n] => Ok(self.slice(n.parse().map_err(|_| Ended::BadLine)?)?),
            ["finish"] => Ok(self.slice(u64::MAX)?),
            ["reset"] => Ok(self.reset()?),
            ["colours"] => self.grays().map(|names| format!("gray {}", list_of(&names))),
            ["dump"] => self.heap.dump().map(|lines| {
                lines.iter().map(|line| line_text(line) + "\n").collect::<String>() + "end"
            }),
            _ => return Err(Ended::BadLine),
        })
    }

    // The gray names, one after the other, which are those of the list.
    fn grays(&mut self) -> Result<Vec<Name>> {
        let mut names = Vec::new();
        while let Some(name) = self.heap.next_gray(names.last().copied())? {
            names.push(name);
        }
        assert_eq!(names, self.heap.grays()?);
        Ok(names)
    }

    fn run(&mut self, input: impl BufRead) -> std::result::Result<(), Ended> {
        for line in input.lines() {
            let line = line?;
            match self.answer(&line.split(' ').collect::<Vec<_>>())? {
                Ok(answer) => writeln!(self.out, "{answer}")?,
                Err(error) => writeln!(self.out, "{}", word_of(error)?)?,
            }
        }
        self.out.flush()?;
        Ok(())
    }
}

fn main() {
    let heap = match Heap::new() {
        Ok(heap) => heap,
        Err(error) => {
            eprintln!("replay: {error}");
            std::process::exit(6);
        }
    };
    let out = BufWriter::new(io::stdout().lock());
    let pinned = if std::env::args().any(|word| word == "--pin") { 8 } else { 0 };
    let mut replay = Replay { heap, out, pinned: (0..pinned).map(|_| None).collect() };
    let status = match replay.run(io::stdin().lock()) {
        Ok(()) => 0,
        Err(Ended::BadLine) => {
            eprintln!("replay: bad line");
            3
        }
        Err(Ended::Heap(error)) => {
            eprintln!("replay: {error}");
            6
        }
        Err(Ended::Io(error)) => {
            eprintln!("replay: {error}");
            4
        }
    };
    drop(replay);
    std::process::exit(status);
}
