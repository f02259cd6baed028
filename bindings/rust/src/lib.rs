//! A heap of zones with its incremental collector, which is linked as a static library.
//!
//! ```
//! use gczone::{Event, Heap, REGISTERS};
//!
//! # fn main() -> Result<(), gczone::Error> {
//! let [kept, other, ..] = REGISTERS;
//! let mut heap = Heap::new()?;
//! let zone = heap.zone()?;
//! let compartment = heap.compartment(zone)?;
//! heap.object(kept, compartment, 1)?;
//! let dead = heap.object(other, compartment, 0)?;
//! heap.empty(other)?;
//! heap.begin(&[zone])?;
//! for event in heap.events(1000) {
//!     if let Event::Swept { freed, .. } = event? {
//!         assert_eq!(freed, [dead]);
//!     }
//! }
//! # Ok(())
//! # }
//! ```
//!
//! A register and a pinned root are black roots, and a gray slot is a gray one. docs/EMBEDDING.md tells what each call
//! does.

#![deny(unsafe_code)]

#[allow(unsafe_code)]
mod declarations;
mod payloads;

pub use payloads::Payloads;

use declarations as sys;
use std::fmt;

/// A register: a black root. There are sixteen, `REGISTERS`.
#[derive(Clone, Copy, Debug, PartialEq, Eq, Hash)]
pub struct Register(u8);

/// A gray slot: a gray root. There are 64, `SLOTS`.
#[derive(Clone, Copy, Debug, PartialEq, Eq, Hash)]
pub struct Slot(u8);

/// The registers.
pub const REGISTERS: [Register; 16] = {
    let mut all = [Register(0); 16];
    let mut index = 0;
    while index < 16 {
        all[index as usize] = Register(index);
        index += 1;
    }
    all
};

/// The gray slots.
pub const SLOTS: [Slot; 64] = {
    let mut all = [Slot(0); 64];
    let mut index = 0;
    while index < 64 {
        all[index as usize] = Slot(index);
        index += 1;
    }
    all
};

/// A weak slot: it names a cell, and keeps none. There are 64, `WEAK_SLOTS`.
#[derive(Clone, Copy, Debug, PartialEq, Eq, Hash)]
pub struct WeakSlot(u8);

/// The weak slots.
pub const WEAK_SLOTS: [WeakSlot; 64] = {
    let mut all = [WeakSlot(0); 64];
    let mut index = 0;
    while index < 64 {
        all[index as usize] = WeakSlot(index);
        index += 1;
    }
    all
};

/// A pinned root: a black root of one heap, as a register is, until `Heap::unpin` takes it back. There are as many as
/// there is memory for. One that is dropped without that holds its cell as long as there is the heap.
#[must_use = "its cell is held until `Heap::unpin` takes it back"]
#[derive(Debug, PartialEq, Eq, Hash)]
pub struct Root(u64);

/// What a compaction did.
#[derive(Clone, Copy, Debug, PartialEq, Eq, Hash)]
pub struct Compacted {
    /// How many cells moved.
    pub moved: u64,
    /// How many arenas were given up.
    pub given_up: u32,
}

/// A zone of a heap.
#[derive(Clone, Copy, Debug, PartialEq, Eq, Hash, PartialOrd, Ord)]
pub struct Zone(u8);

impl Zone {
    /// The zone with this number, below 64. A heap refuses one that it has not made.
    pub fn new(number: u8) -> Option<Zone> {
        (number < 64).then_some(Zone(number))
    }

    /// The number that the heap gave it.
    pub fn number(self) -> u8 {
        self.0
    }
}

/// A compartment of a heap.
#[derive(Clone, Copy, Debug, PartialEq, Eq, Hash, PartialOrd, Ord)]
pub struct Compartment(u8);

impl Compartment {
    /// The compartment with this number. A heap refuses one that it has not made.
    pub fn new(number: u8) -> Compartment {
        Compartment(number)
    }

    /// The number that the heap gave it.
    pub fn number(self) -> u8 {
        self.0
    }
}

/// What a cell is called. A number is given once, and never again.
#[derive(Clone, Copy, Debug, PartialEq, Eq, Hash, PartialOrd, Ord)]
pub enum Name {
    /// An object or a map.
    Cell(u64),
    /// A wrapper: the compartment that it stands in, and the object or map that it leads to.
    Wrapper { compartment: Compartment, target: u64 },
}

impl fmt::Display for Name {
    fn fmt(&self, to: &mut fmt::Formatter<'_>) -> fmt::Result {
        match self {
            Name::Cell(number) => write!(to, "{number}"),
            Name::Wrapper { compartment, target } => write!(to, "{}:{target}", compartment.0),
        }
    }
}

/// Why a call did nothing.
#[derive(Clone, Copy, Debug, PartialEq, Eq, Hash)]
pub enum Error {
    /// The library that is linked is of another interface, whose number this is.
    OtherInterface(u32),
    NoMemory,
    /// 4,294,967,295 cells were made.
    HeapFull,
    /// There is no such entry.
    Absent,
    /// A field is above 7.
    BadField,
    /// An object is to have more than 8 fields.
    BadFieldCount,
    /// 64 zones, or 256 compartments, are there.
    Full,
    /// A zone is not made in this heap, or no zone is given.
    NoZone,
    /// The compartment is not made in this heap.
    NoCompartment,
    /// A register that is read is empty.
    Empty,
    /// A cell is of another kind.
    Kind,
    NoField,
    /// Two cells are of different compartments.
    Cross,
    /// A collection runs.
    Running,
    /// A zone is being prepared or marking, so colours are not settled.
    Marking,
    /// This heap has no such pinned root.
    NotPinned,
    /// A status that this package does not know.
    Other(u32),
}

impl Error {
    fn of_status(status: u32) -> Error {
        match status {
            sys::GCZ_NO_MEMORY => Error::NoMemory,
            sys::GCZ_HEAP_FULL => Error::HeapFull,
            sys::GCZ_NONE => Error::Absent,
            sys::GCZ_BAD_FIELD => Error::BadField,
            sys::GCZ_BAD_FIELD_COUNT => Error::BadFieldCount,
            sys::GCZ_FULL => Error::Full,
            sys::GCZ_NO_ZONE => Error::NoZone,
            sys::GCZ_NO_COMPARTMENT => Error::NoCompartment,
            sys::GCZ_EMPTY => Error::Empty,
            sys::GCZ_KIND => Error::Kind,
            sys::GCZ_NO_FIELD => Error::NoField,
            sys::GCZ_CROSS => Error::Cross,
            sys::GCZ_RUNNING => Error::Running,
            sys::GCZ_MARKING => Error::Marking,
            sys::GCZ_NOT_PINNED => Error::NotPinned,
            other => Error::Other(other),
        }
    }

    fn status(self) -> u32 {
        match self {
            Error::NoMemory => sys::GCZ_NO_MEMORY,
            Error::HeapFull => sys::GCZ_HEAP_FULL,
            Error::Absent => sys::GCZ_NONE,
            Error::BadField => sys::GCZ_BAD_FIELD,
            Error::BadFieldCount => sys::GCZ_BAD_FIELD_COUNT,
            Error::Full => sys::GCZ_FULL,
            Error::NoZone => sys::GCZ_NO_ZONE,
            Error::NoCompartment => sys::GCZ_NO_COMPARTMENT,
            Error::Empty => sys::GCZ_EMPTY,
            Error::Kind => sys::GCZ_KIND,
            Error::NoField => sys::GCZ_NO_FIELD,
            Error::Cross => sys::GCZ_CROSS,
            Error::Running => sys::GCZ_RUNNING,
            Error::Marking => sys::GCZ_MARKING,
            Error::NotPinned => sys::GCZ_NOT_PINNED,
            Error::Other(status) | Error::OtherInterface(status) => status,
        }
    }
}

impl fmt::Display for Error {
    fn fmt(&self, to: &mut fmt::Formatter<'_>) -> fmt::Result {
        if let Error::OtherInterface(number) = self {
            return write!(to, "libgczone has interface {number}, and {} is wanted", sys::GCZ_INTERFACE);
        }
        let mut room = [0; 80];
        let length = sys::status_text(self.status(), &mut room).min(room.len() - 1);
        to.write_str(&String::from_utf8_lossy(&room[..length]))
    }
}

impl std::error::Error for Error {}

pub type Result<T> = std::result::Result<T, Error>;

/// What a collection reports.
#[derive(Clone, Debug, PartialEq, Eq)]
pub enum Event {
    /// The zones are prepared, and marking begins with the heap as it is.
    Started,
    /// The sweep groups, in the order in which they end.
    Groups(Vec<Vec<Zone>>),
    /// The marking of a group ended: its zones, its gray names, and the watched cells that died with it, which are
    /// watched no longer.
    Ended { zones: Vec<Zone>, grays: Vec<Name>, lost: Vec<Name> },
    /// An arena was swept: the names of what was freed.
    Swept { arena: u32, freed: Vec<Name> },
    /// The collection was given up: its zones that were still being prepared or marking.
    Stopped(Vec<Zone>),
}

/// What a step of a collection did.
#[derive(Clone, Debug, PartialEq, Eq)]
pub struct Step {
    pub units: u64,
    pub event: Option<Event>,
    /// Whether the collection is over with this step.
    pub finished: bool,
}

/// How much a heap holds.
#[derive(Clone, Copy, Debug, PartialEq, Eq)]
pub struct Counts {
    /// The cells that are there, wrappers among them.
    pub cells: u64,
    /// The objects and maps that were ever made. The next one has this number.
    pub objects: u64,
    /// The entries of weak maps.
    pub entries: u64,
    /// The bytes of the arenas: 64 cells of 40 bytes each, and 32 beside them.
    pub bytes: u64,
    /// The arenas of 64 slots each. None is given back but with the heap.
    pub arenas: u32,
}

/// A line of a dump.
#[derive(Clone, Copy, Debug, PartialEq, Eq)]
pub enum Line {
    Cell { name: Name, black: bool },
    /// A field of an object, and what it holds.
    Edge { object: u64, name: Name },
    /// An entry of a weak map.
    Entry { map: u64, key: Name, value: Name },
}

/// A heap with its collector. It may go to another thread, and is in one call at a time.
pub struct Heap {
    handle: sys::Handle,
}

impl fmt::Debug for Heap {
    fn fmt(&self, to: &mut fmt::Formatter<'_>) -> fmt::Result {
        to.debug_struct("Heap").finish_non_exhaustive()
    }
}

fn checked<T>(result: std::result::Result<T, u32>) -> Result<T> {
    result.map_err(Error::of_status)
}

// Numbers of compartments are below 256, and those of zones below 64.
fn name_of(name: sys::Name) -> Option<Name> {
    match name.kind {
        sys::GCZ_CELL => Some(Name::Cell(name.number)),
        sys::GCZ_WRAPPER => {
            Some(Name::Wrapper { compartment: Compartment(name.compartment as u8), target: name.number })
        }
        _ => None,
    }
}

fn as_name(name: Option<Name>) -> sys::Name {
    match name {
        None => sys::Name::default(),
        Some(Name::Cell(number)) => sys::Name { number, kind: sys::GCZ_CELL, compartment: 0 },
        Some(Name::Wrapper { compartment, target }) => {
            sys::Name { number: target, kind: sys::GCZ_WRAPPER, compartment: compartment.0.into() }
        }
    }
}

fn zones_of(bits: u64) -> Vec<Zone> {
    (0..64).filter(|zone| bits >> zone & 1 == 1).map(Zone).collect()
}

impl Heap {
    /// A heap without zones.
    pub fn new() -> Result<Heap> {
        match sys::interface() {
            sys::GCZ_INTERFACE => Ok(Heap { handle: checked(sys::Handle::open())? }),
            other => Err(Error::OtherInterface(other)),
        }
    }

    /// Makes a zone.
    pub fn zone(&mut self) -> Result<Zone> {
        Ok(Zone(checked(self.handle.zone())?.number as u8))
    }

    /// Makes a compartment of a zone.
    pub fn compartment(&mut self, zone: Zone) -> Result<Compartment> {
        Ok(Compartment(checked(self.handle.comp(zone.0.into()))?.number as u8))
    }

    /// Makes an object with this many null fields, at most 8. The register holds it.
    pub fn object(&mut self, register: Register, compartment: Compartment, fields: u8) -> Result<Name> {
        let made = checked(self.handle.new_object(register.0.into(), compartment.0.into(), fields.into()))?;
        Ok(Name::Cell(made.number))
    }

    /// Makes a weak map without entries. The register holds it.
    pub fn map(&mut self, register: Register, compartment: Compartment) -> Result<Name> {
        Ok(Name::Cell(checked(self.handle.new_map(register.0.into(), compartment.0.into()))?.number))
    }

    /// The register holds what a field of the object in `from` holds, or becomes empty.
    pub fn get(&mut self, register: Register, from: Register, field: u8) -> Result<Option<Name>> {
        checked(self.handle.get(register.0.into(), from.0.into(), field.into())).map(name_of)
    }

    /// A field of the register's object holds what another one holds, or null.
    pub fn set(&mut self, register: Register, field: u8, from: Option<Register>) -> Result<()> {
        checked(match from {
            Some(from) => self.handle.set(register.0.into(), field.into(), from.0.into()),
            None => self.handle.clear(register.0.into(), field.into()),
        })
    }

    /// The register holds what another one holds, or becomes empty.
    pub fn copy(&mut self, register: Register, from: Register) -> Result<()> {
        checked(self.handle.copy(register.0.into(), from.0.into()))
    }

    /// The register becomes empty.
    pub fn empty(&mut self, register: Register) -> Result<()> {
        checked(self.handle.drop_register(register.0.into()))
    }

    /// The register holds the cell of another one as a compartment sees it: itself, or its wrapper.
    pub fn wrap(&mut self, register: Register, from: Register, compartment: Compartment) -> Result<Option<Name>> {
        checked(self.handle.wrap(register.0.into(), from.0.into(), compartment.0.into())).map(name_of)
    }

    /// The register holds the target of the wrapper in `from`.
    pub fn unwrap(&mut self, register: Register, from: Register) -> Result<Option<Name>> {
        checked(self.handle.unwrap(register.0.into(), from.0.into())).map(name_of)
    }

    /// The gray slot holds what the register holds, or becomes empty.
    pub fn hold(&mut self, slot: Slot, register: Register) -> Result<()> {
        checked(self.handle.hold(slot.0.into(), register.0.into()))
    }

    /// The gray slot becomes empty.
    pub fn release(&mut self, slot: Slot) -> Result<()> {
        checked(self.handle.release(slot.0.into()))
    }

    /// The register holds what the gray slot holds, and that turns black; or it becomes empty.
    pub fn expose(&mut self, register: Register, slot: Slot) -> Result<Option<Name>> {
        checked(self.handle.expose(register.0.into(), slot.0.into())).map(name_of)
    }

    /// In the map of a register, the key has a value.
    pub fn put(&mut self, map: Register, key: Register, value: Register) -> Result<()> {
        checked(self.handle.put(map.0.into(), key.0.into(), value.0.into()))
    }

    /// Removes the entry of a key. Returns whether there was one.
    pub fn delete(&mut self, map: Register, key: Register) -> Result<bool> {
        match checked(self.handle.del(map.0.into(), key.0.into())) {
            Err(Error::Absent) => Ok(false),
            done => done.map(|()| true),
        }
    }

    /// The register holds the value of a key, or becomes empty.
    pub fn find(&mut self, register: Register, map: Register, key: Register) -> Result<Option<Name>> {
        checked(self.handle.find(register.0.into(), map.0.into(), key.0.into())).map(name_of)
    }

    /// The weak slot names what the register holds, or becomes empty. When its cell dies, it becomes empty.
    pub fn weaken(&mut self, slot: WeakSlot, register: Register) -> Result<()> {
        checked(self.handle.weaken(slot.0.into(), register.0.into()))
    }

    /// The register holds what the weak slot names, and that turns black; or it becomes empty.
    pub fn deref(&mut self, register: Register, slot: WeakSlot) -> Result<Option<Name>> {
        checked(self.handle.deref(register.0.into(), slot.0.into())).map(name_of)
    }

    /// What the register holds is watched: the `Event::Ended` of the group with which it dies names it, once.
    pub fn watch(&mut self, register: Register) -> Result<()> {
        checked(self.handle.watch(register.0.into()))
    }

    /// What the register holds is watched no longer. Returns whether it was.
    pub fn unwatch(&mut self, register: Register) -> Result<bool> {
        match checked(self.handle.unwatch(register.0.into())) {
            Err(Error::Absent) => Ok(false),
            done => done.map(|()| true),
        }
    }

    /// A new pinned root holds what the register holds. It takes memory, and no other call on pinned roots does.
    pub fn pin(&mut self, register: Register) -> Result<Root> {
        checked(self.handle.pin(register.0.into())).map(Root)
    }

    /// The register holds what the pinned root holds.
    pub fn load(&mut self, register: Register, root: &Root) -> Result<()> {
        checked(self.handle.load(register.0.into(), root.0))
    }

    /// The pinned root holds nothing any more.
    pub fn unpin(&mut self, root: Root) -> Result<()> {
        checked(self.handle.unpin(root.0))
    }

    /// Moves the cells of a zone together, and gives up the arenas that this empties. A collection must not run.
    pub fn compact(&mut self, zone: Zone) -> Result<Compacted> {
        let done = checked(self.handle.compact(zone.0.into()))?;
        Ok(Compacted { moved: done.moved, given_up: done.given_up })
    }

    /// Begins a collection of these zones.
    pub fn begin(&mut self, zones: &[Zone]) -> Result<()> {
        checked(self.handle.begin(zones.iter().fold(0, |bits, zone| bits | 1 << zone.0)))
    }

    /// Whether a collection runs.
    pub fn is_running(&mut self) -> bool {
        matches!(self.handle.running(), Ok(true))
    }

    /// A bound on the units that the collection that runs may still take while no command comes; 0 exactly when none
    /// runs.
    pub fn units_left(&mut self) -> Result<u64> {
        checked(self.handle.units_left())
    }

    /// How much the heap holds.
    pub fn counts(&mut self) -> Result<Counts> {
        let counts = checked(self.handle.counts())?;
        Ok(Counts {
            cells: counts.cells,
            objects: counts.objects,
            entries: counts.entries,
            bytes: counts.bytes,
            arenas: counts.arenas,
        })
    }

    /// Does a step of the collection that runs, of at most `limit` units: those that report nothing, or one that
    /// reports. Does nothing if none runs.
    pub fn advance(&mut self, limit: u64) -> Result<Step> {
        let step = checked(self.handle.advance(limit))?;
        self.told(step)
    }

    /// Gives up the collection that runs, and returns its last events. All that its zones hold which were still being
    /// prepared or marking is black then, and is not freed before the next collection. Does nothing if none runs.
    pub fn reset(&mut self) -> Result<Vec<Event>> {
        let mut events = Vec::new();
        while self.is_running() {
            let step = checked(self.handle.reset())?;
            events.extend(self.told(step)?.event);
        }
        Ok(events)
    }

    /// The events of the collection that runs, which goes on, in steps of at most `limit` units, as they are asked for.
    /// After an error the iterator ends, and the collection may be gone on with.
    pub fn events(&mut self, limit: u64) -> Events<'_> {
        Events { heap: self, limit: limit.max(1), failed: false }
    }

    /// The gray names, ascending.
    pub fn grays(&mut self) -> Result<Vec<Name>> {
        let count = checked(self.handle.grays())?;
        self.names(count, sys::Handle::gray)
    }

    /// The first gray name behind this one, or the first of all, if there is one. It takes no memory, and walks over
    /// the whole heap: for a few names.
    pub fn next_gray(&mut self, after: Option<Name>) -> Result<Option<Name>> {
        match checked(self.handle.next_gray(as_name(after))) {
            Err(Error::Absent) => Ok(None),
            next => next.map(name_of),
        }
    }

    /// A dump of the heap: its cells by name, its edges by object and field, and the weak entries by map and key.
    pub fn dump(&mut self) -> Result<Vec<Line>> {
        let count = checked(self.handle.dump())?;
        let mut lines = Vec::with_capacity(count);
        for index in 0..count {
            lines.extend(line_of(checked(self.handle.dump_line(index))?));
        }
        Ok(lines)
    }

    // A step, with what it reports.
    fn told(&mut self, step: sys::Step) -> Result<Step> {
        let event = if step.report == sys::GCZ_NO_REPORT { None } else { Some(self.last_event()?) };
        Ok(Step { units: step.units, event, finished: step.finished })
    }

    fn names(
        &mut self,
        count: usize,
        get: fn(&mut sys::Handle, usize) -> std::result::Result<sys::Name, u32>,
    ) -> Result<Vec<Name>> {
        let mut names = Vec::with_capacity(count);
        for index in 0..count {
            names.extend(name_of(checked(get(&mut self.handle, index))?));
        }
        Ok(names)
    }

    // The watched cells that died with the group whose end is the last report, ascending.
    fn lost(&mut self) -> Result<Vec<Name>> {
        let mut names = Vec::new();
        loop {
            match checked(self.handle.report_lost(names.len())) {
                Err(Error::Absent) => return Ok(names),
                name => names.extend(name_of(name?)),
            }
        }
    }

    fn last_event(&mut self) -> Result<Event> {
        let report = checked(self.handle.report())?;
        Ok(match report.kind {
            sys::GCZ_STARTED => Event::Started,
            sys::GCZ_GROUPS => {
                let mut groups = Vec::with_capacity(report.count);
                for index in 0..report.count {
                    groups.push(zones_of(checked(self.handle.report_group(index))?));
                }
                Event::Groups(groups)
            }
            sys::GCZ_ENDED => Event::Ended {
                zones: zones_of(report.zones),
                grays: self.names(report.count, sys::Handle::report_name)?,
                lost: self.lost()?,
            },
            sys::GCZ_STOPPED => Event::Stopped(zones_of(report.zones)),
            _ => Event::Swept { arena: report.arena, freed: self.names(report.count, sys::Handle::report_name)? },
        })
    }
}

fn line_of(line: sys::Line) -> Option<Line> {
    let name = name_of(line.name)?;
    match line.kind {
        sys::GCZ_LINE_CELL => Some(Line::Cell { name, black: line.black }),
        sys::GCZ_LINE_EDGE => Some(Line::Edge { object: line.owner, name }),
        sys::GCZ_LINE_ENTRY => Some(Line::Entry { map: line.owner, key: name, value: name_of(line.value)? }),
        _ => None,
    }
}

/// The events of a collection.
#[derive(Debug)]
pub struct Events<'a> {
    heap: &'a mut Heap,
    limit: u64,
    failed: bool,
}

impl Iterator for Events<'_> {
    type Item = Result<Event>;

    fn next(&mut self) -> Option<Result<Event>> {
        while !self.failed && self.heap.is_running() {
            match self.heap.advance(self.limit) {
                Ok(step) => {
                    if let Some(event) = step.event {
                        return Some(Ok(event));
                    }
                }
                Err(error) => {
                    self.failed = true;
                    return Some(Err(error));
                }
            }
        }
        None
    }
}
