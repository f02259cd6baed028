//! The declarations of gczone.h, and safe calls of each. All code that is unsafe stands here.
//! tools/check-bindings compares the declarations with gczone.h and with the exports of crates/gczone_c.
#![allow(dead_code)] // The constants are all of gczone.h, used or not.

use std::ptr;

#[repr(C)]
pub struct Slot {
    at: *mut u8,
}

#[repr(C)]
pub struct Gcz {
    is_open: bool,
    slot: Slot,
}

#[repr(C)]
#[derive(Clone, Copy, Default)]
pub struct Name {
    pub number: u64,
    pub kind: u32,
    pub compartment: u32,
}

#[repr(C)]
#[derive(Clone, Copy, Default)]
pub struct Step {
    pub units: u64,
    pub report: u32,
    pub finished: bool,
}

#[repr(C)]
#[derive(Clone, Copy, Default)]
pub struct Counts {
    pub cells: u64,
    pub objects: u64,
    pub entries: u64,
    pub bytes: u64,
    pub arenas: u32,
}

#[repr(C)]
#[derive(Clone, Copy, Default)]
pub struct Compacted {
    pub moved: u64,
    pub given_up: u32,
}

#[repr(C)]
#[derive(Clone, Copy, Default)]
pub struct Report {
    pub zones: u64,
    pub count: usize,
    pub kind: u32,
    pub arena: u32,
}

#[repr(C)]
#[derive(Clone, Copy, Default)]
pub struct Line {
    pub owner: u64,
    pub name: Name,
    pub value: Name,
    pub kind: u32,
    pub black: bool,
}

pub const GCZ_INTERFACE: u32 = 1;

pub const GCZ_DONE: u32 = 0;
pub const GCZ_CLOSED: u32 = 1;
pub const GCZ_OPEN: u32 = 2;
pub const GCZ_NO_MEMORY: u32 = 3;
pub const GCZ_HEAP_FULL: u32 = 4;
pub const GCZ_NONE: u32 = 5;
pub const GCZ_BAD_REGISTER: u32 = 8;
pub const GCZ_BAD_ZONE: u32 = 9;
pub const GCZ_BAD_COMPARTMENT: u32 = 10;
pub const GCZ_BAD_SLOT: u32 = 11;
pub const GCZ_BAD_FIELD: u32 = 12;
pub const GCZ_BAD_FIELD_COUNT: u32 = 13;
pub const GCZ_BAD_KIND: u32 = 14;
pub const GCZ_BAD_WEAK_SLOT: u32 = 15;
pub const GCZ_FULL: u32 = 16;
pub const GCZ_NO_ZONE: u32 = 17;
pub const GCZ_NO_COMPARTMENT: u32 = 18;
pub const GCZ_EMPTY: u32 = 19;
pub const GCZ_KIND: u32 = 20;
pub const GCZ_NO_FIELD: u32 = 21;
pub const GCZ_CROSS: u32 = 22;
pub const GCZ_RUNNING: u32 = 24;
pub const GCZ_IDLE: u32 = 25;
pub const GCZ_MARKING: u32 = 26;
pub const GCZ_NOT_PINNED: u32 = 27;

pub const GCZ_NOTHING: u32 = 0;
pub const GCZ_CELL: u32 = 1;
pub const GCZ_WRAPPER: u32 = 2;
pub const GCZ_ZONE: u32 = 3;
pub const GCZ_COMPARTMENT: u32 = 4;

pub const GCZ_NO_REPORT: u32 = 0;
pub const GCZ_GROUPS: u32 = 1;
pub const GCZ_ENDED: u32 = 2;
pub const GCZ_SWEPT: u32 = 3;
pub const GCZ_STARTED: u32 = 4;
pub const GCZ_STOPPED: u32 = 5;

pub const GCZ_LINE_END: u32 = 0;
pub const GCZ_LINE_CELL: u32 = 1;
pub const GCZ_LINE_EDGE: u32 = 2;
pub const GCZ_LINE_ENTRY: u32 = 3;

extern "C" {
    fn gcz_interface() -> u32;
    fn gcz_status_text(status: u32, room: *mut u8, size: usize) -> usize;
    fn gcz_open(gcz: *mut Gcz) -> u32;
    fn gcz_close(gcz: *mut Gcz);
    fn gcz_zone(gcz: *mut Gcz, answer: *mut Name) -> u32;
    fn gcz_comp(gcz: *mut Gcz, zone: u32, answer: *mut Name) -> u32;
    fn gcz_new(gcz: *mut Gcz, reg: u32, comp: u32, fields: u32, answer: *mut Name) -> u32;
    fn gcz_map(gcz: *mut Gcz, reg: u32, comp: u32, answer: *mut Name) -> u32;
    fn gcz_get(gcz: *mut Gcz, reg: u32, from: u32, field: u32, answer: *mut Name) -> u32;
    fn gcz_set(gcz: *mut Gcz, reg: u32, field: u32, from: u32) -> u32;
    fn gcz_clear(gcz: *mut Gcz, reg: u32, field: u32) -> u32;
    fn gcz_copy(gcz: *mut Gcz, reg: u32, from: u32) -> u32;
    fn gcz_drop(gcz: *mut Gcz, reg: u32) -> u32;
    fn gcz_wrap(gcz: *mut Gcz, reg: u32, from: u32, comp: u32, answer: *mut Name) -> u32;
    fn gcz_unwrap(gcz: *mut Gcz, reg: u32, from: u32, answer: *mut Name) -> u32;
    fn gcz_hold(gcz: *mut Gcz, slot: u32, reg: u32) -> u32;
    fn gcz_release(gcz: *mut Gcz, slot: u32) -> u32;
    fn gcz_expose(gcz: *mut Gcz, reg: u32, slot: u32, answer: *mut Name) -> u32;
    fn gcz_put(gcz: *mut Gcz, map: u32, key: u32, value: u32) -> u32;
    fn gcz_del(gcz: *mut Gcz, map: u32, key: u32) -> u32;
    fn gcz_find(gcz: *mut Gcz, reg: u32, map: u32, key: u32, answer: *mut Name) -> u32;
    fn gcz_weaken(gcz: *mut Gcz, slot: u32, reg: u32) -> u32;
    fn gcz_deref(gcz: *mut Gcz, reg: u32, slot: u32, answer: *mut Name) -> u32;
    fn gcz_watch(gcz: *mut Gcz, reg: u32) -> u32;
    fn gcz_unwatch(gcz: *mut Gcz, reg: u32) -> u32;
    fn gcz_pin(gcz: *mut Gcz, reg: u32, root: *mut u64) -> u32;
    fn gcz_load(gcz: *mut Gcz, reg: u32, root: u64) -> u32;
    fn gcz_unpin(gcz: *mut Gcz, root: u64) -> u32;
    fn gcz_compact(gcz: *mut Gcz, zone: u32, done: *mut Compacted) -> u32;
    fn gcz_begin(gcz: *mut Gcz, zones: u64) -> u32;
    fn gcz_advance(gcz: *mut Gcz, limit: u64, done: *mut Step) -> u32;
    fn gcz_running(gcz: *mut Gcz, running: *mut bool) -> u32;
    fn gcz_reset(gcz: *mut Gcz, done: *mut Step) -> u32;
    fn gcz_units_left(gcz: *mut Gcz, units: *mut u64) -> u32;
    fn gcz_counts(gcz: *mut Gcz, counts: *mut Counts) -> u32;
    fn gcz_report(gcz: *mut Gcz, told: *mut Report) -> u32;
    fn gcz_report_name(gcz: *mut Gcz, index: usize, name: *mut Name) -> u32;
    fn gcz_report_lost(gcz: *mut Gcz, index: usize, name: *mut Name) -> u32;
    fn gcz_report_group(gcz: *mut Gcz, index: usize, zones: *mut u64) -> u32;
    fn gcz_grays(gcz: *mut Gcz, count: *mut usize) -> u32;
    fn gcz_gray(gcz: *mut Gcz, index: usize, name: *mut Name) -> u32;
    fn gcz_next_gray(gcz: *mut Gcz, name: *mut Name) -> u32;
    fn gcz_dump(gcz: *mut Gcz, count: *mut usize) -> u32;
    fn gcz_dump_line(gcz: *mut Gcz, index: usize, line: *mut Line) -> u32;
}

/// The number of the interface of the library that is linked.
pub fn interface() -> u32 {
    // SAFETY: it takes nothing.
    unsafe { gcz_interface() }
}

/// Writes a status in plain words, and returns how long the whole text is.
pub fn status_text(status: u32, room: &mut [u8]) -> usize {
    // SAFETY: the room has this size, and is borrowed for the call.
    unsafe { gcz_status_text(status, room.as_mut_ptr(), room.len()) }
}

/// A handle that is open until it is dropped, and in one call at a time: each takes it by `&mut`.
pub struct Handle(Gcz);

// SAFETY: what the handle owns is memory of malloc, which any thread may use and free, and no call keeps anything that
// its thread has. The contract `may_be_sent` of crates/gczone_c asks the same of the handle.
unsafe impl Send for Handle {}

impl Drop for Handle {
    fn drop(&mut self) {
        // SAFETY: as of `calls!`.
        unsafe { gcz_close(&mut self.0) }
    }
}

impl Handle {
    /// Opens a handle, or returns the status.
    pub fn open() -> Result<Handle, u32> {
        let mut gcz = Gcz { is_open: false, slot: Slot { at: ptr::null_mut() } };
        // SAFETY: the handle is closed, and no other call has it.
        match unsafe { gcz_open(&mut gcz) } {
            GCZ_DONE => Ok(Handle(gcz)),
            status => Err(status),
        }
    }

    /// The first gray name behind this one, or behind none the first of all.
    pub fn next_gray(&mut self, after: Name) -> Result<Name, u32> {
        let mut name = after;
        // SAFETY: as of `calls!`, where the answer is a local, too.
        match unsafe { gcz_next_gray(&mut self.0, &mut name) } {
            GCZ_DONE => Ok(name),
            status => Err(status),
        }
    }
}

// A method for each other call: with an answer, which it returns, or without.
macro_rules! calls {
    ($($name:ident = $call:ident($($number:ident: $type:ty),*) $(-> $answer:ty)?;)*) => {
        impl Handle {
            $(calls!(@one $name = $call($($number: $type),*) $(-> $answer)?);)*
        }
    };
    (@one $name:ident = $call:ident($($number:ident: $type:ty),*) -> $answer:ty) => {
        pub fn $name(&mut self, $($number: $type),*) -> Result<$answer, u32> {
            let mut answer = <$answer>::default();
            // SAFETY: the handle is open and borrowed for the call, and the answer is a local, so the two pointers lead
            // to objects that live and do not overlap.
            match unsafe { $call(&mut self.0, $($number,)* &mut answer) } {
                GCZ_DONE => Ok(answer),
                status => Err(status),
            }
        }
    };
    (@one $name:ident = $call:ident($($number:ident: $type:ty),*)) => {
        pub fn $name(&mut self, $($number: $type),*) -> Result<(), u32> {
            // SAFETY: the handle is open and borrowed for the call.
            match unsafe { $call(&mut self.0, $($number),*) } {
                GCZ_DONE => Ok(()),
                status => Err(status),
            }
        }
    };
}

calls! {
    zone = gcz_zone() -> Name;
    comp = gcz_comp(zone: u32) -> Name;
    new_object = gcz_new(reg: u32, comp: u32, fields: u32) -> Name;
    new_map = gcz_map(reg: u32, comp: u32) -> Name;
    get = gcz_get(reg: u32, from: u32, field: u32) -> Name;
    set = gcz_set(reg: u32, field: u32, from: u32);
    clear = gcz_clear(reg: u32, field: u32);
    copy = gcz_copy(reg: u32, from: u32);
    drop_register = gcz_drop(reg: u32);
    wrap = gcz_wrap(reg: u32, from: u32, comp: u32) -> Name;
    unwrap = gcz_unwrap(reg: u32, from: u32) -> Name;
    hold = gcz_hold(slot: u32, reg: u32);
    release = gcz_release(slot: u32);
    expose = gcz_expose(reg: u32, slot: u32) -> Name;
    put = gcz_put(map: u32, key: u32, value: u32);
    del = gcz_del(map: u32, key: u32);
    find = gcz_find(reg: u32, map: u32, key: u32) -> Name;
    weaken = gcz_weaken(slot: u32, reg: u32);
    deref = gcz_deref(reg: u32, slot: u32) -> Name;
    watch = gcz_watch(reg: u32);
    unwatch = gcz_unwatch(reg: u32);
    pin = gcz_pin(reg: u32) -> u64;
    load = gcz_load(reg: u32, root: u64);
    unpin = gcz_unpin(root: u64);
    compact = gcz_compact(zone: u32) -> Compacted;
    begin = gcz_begin(zones: u64);
    advance = gcz_advance(limit: u64) -> Step;
    running = gcz_running() -> bool;
    reset = gcz_reset() -> Step;
    units_left = gcz_units_left() -> u64;
    counts = gcz_counts() -> Counts;
    report = gcz_report() -> Report;
    report_name = gcz_report_name(index: usize) -> Name;
    report_lost = gcz_report_lost(index: usize) -> Name;
    report_group = gcz_report_group(index: usize) -> u64;
    grays = gcz_grays() -> usize;
    gray = gcz_gray(index: usize) -> Name;
    dump = gcz_dump() -> usize;
    dump_line = gcz_dump_line(index: usize) -> Line;
}
