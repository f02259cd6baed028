//! The collector: barriers, marking, sweep groups and sweeping, by units.
//!
//! A unit is one small step: an arena is cleared, a cell is followed, an entry is looked at, a cell that waits is
//! taken, a wrapper is looked at, a zone has its grouping step or begins, an arena is taken in, a group ends.
//! docs/COLLECTOR.md tells what each does; `units` tells which comes first.

use std::ops::Range;

use crate::groups::Search;
use crate::heap::{By, Entry, Heap, MAP, NONE, Place, WRAPPER, arena_of, bit_of};
use crate::output::{Names, Output};
use crate::pile::Pile;
use crate::sets::members;

/// A walk through the entries of a map or of a key, at the entry that is looked at next.
#[derive(Clone, Copy)]
struct Walk {
    entry: u32,
    by: By,
}

pub struct Collector {
    pub heap: Heap,
    /// The zones of the collection that runs; none when none runs.
    zones: u64,
    /// Those that are being prepared: all of them until marking begins, and none then. Their bits mean nothing.
    preparing: u64,
    /// The arenas among which those that are still to be cleared lie.
    uncleared: Range<usize>,
    /// Those that take black marks: they have not ended.
    marking: u64,
    /// Those of the current group that take gray marks.
    graying: u64,
    /// Those that had no grouping step yet.
    ungrouped: u64,
    search: Search,
    groups: Vec<u64>,
    ended: usize,
    /// The arenas of the last group that ended, ascending, and how many of them were taken in.
    out: Vec<u32>,
    taken: usize,
    /// Cells that were marked and are to be followed.
    black: Pile,
    gray: Pile,
    black_walks: Vec<Walk>,
    gray_walks: Vec<Walk>,
    /// Cells that turned from gray to black outside marking; empty between two calls.
    turned: Vec<Place>,
    names: Names,
}

/// The lowest zone of a set.
fn lowest(zones: u64) -> u64 {
    zones & zones.wrapping_neg()
}

impl Collector {
    pub fn new() -> Self {
        Collector {
            heap: Heap::new(),
            zones: 0,
            preparing: 0,
            uncleared: 0..0,
            marking: 0,
            graying: 0,
            ungrouped: 0,
            search: Search::default(),
            groups: Vec::new(),
            ended: 0,
            out: Vec::new(),
            taken: 0,
            black: Pile::default(),
            gray: Pile::default(),
            black_walks: Vec::new(),
            gray_walks: Vec::new(),
            turned: Vec::new(),
            names: Names::default(),
        }
    }

    pub fn is_running(&self) -> bool {
        self.zones != 0
    }

    /// Whether no zone is being prepared or marking.
    pub fn is_settled(&self) -> bool {
        self.preparing | self.marking == 0
    }

    /// Whether a walk may stand on an entry.
    pub fn is_walking(&self) -> bool {
        !self.black_walks.is_empty() || !self.gray_walks.is_empty()
    }

    #[inline(always)]
    fn takes_black(&self, place: Place) -> bool {
        self.marking >> self.heap.zone_of(place) & 1 == 1
    }

    fn is_prepared(&self, place: Place) -> bool {
        self.preparing >> self.heap.zone_of(place) & 1 == 1
    }

    // Barriers

    /// Marks a cell of a zone that is marking.
    #[inline(always)]
    fn mark_black(&mut self, place: Place) {
        let arena = &mut self.heap.arenas[arena_of(place)];
        if arena.black & bit_of(place) == 0 {
            arena.black |= bit_of(place);
            self.black.push(place);
        }
    }

    /// Makes a cell black that is handed to a register, reached by something black, or overwritten.
    #[inline(always)]
    pub fn expose(&mut self, place: Place) {
        if self.heap.is_black(place) {
            return;
        }
        if self.takes_black(place) {
            self.mark_black(place);
        } else {
            self.turn_black(place);
        }
    }

    /// Turns a gray cell of a zone that is not marking black, and all gray cells that it reaches.
    #[cold]
    fn turn_black(&mut self, place: Place) {
        self.turn(place);
        while let Some(place) = self.turned.pop() {
            let cell = *self.heap.cell(place);
            match cell.kind {
                MAP => self.turn_values(By::Map, place),
                WRAPPER => self.turn(cell.fields[0]),
                fields => {
                    for target in &cell.fields[..usize::from(fields)] {
                        if *target != NONE {
                            self.turn(*target);
                        }
                    }
                }
            }
            if cell.is_key {
                self.turn_values(By::Key, place);
            }
            if cell.is_delegate {
                self.turn_keys(place);
            }
        }
    }

    /// Turns a cell black, unless it is of a zone that is being prepared.
    fn turn(&mut self, place: Place) {
        if self.heap.is_black(place) || self.is_prepared(place) {
            return;
        }
        if self.takes_black(place) {
            self.mark_black(place);
        } else {
            self.heap.arenas[arena_of(place)].black |= bit_of(place);
            self.turned.push(place);
        }
    }

    /// Turns the keys of the entries whose map and delegate are black, where this is the delegate.
    fn turn_keys(&mut self, place: Place) {
        for entry in self.heap.entries_of_delegate(place).to_vec() {
            let found = self.heap.entries[entry as usize];
            if found.value != NONE && self.heap.is_black(found.map) {
                self.turn(found.key);
            }
        }
    }

    /// Turns the values of the entries whose map and key are black, and the keys of those whose map and delegate are.
    fn turn_values(&mut self, by: By, place: Place) {
        let mut entry = self.heap.first_entry(by, place);
        while entry != NONE {
            let found = self.heap.entries[entry as usize];
            if let Some(delegate) = self.heap.delegate(&found)
                && found.value != NONE
                && self.heap.is_black(found.map)
                && self.heap.is_black(delegate)
                && !self.is_prepared(delegate)
            {
                self.turn(found.key);
            }
            if found.value != NONE && self.heap.is_black(found.map) && self.heap.is_black(found.key) {
                self.turn(found.value);
            }
            entry = self.heap.entry_after(by, entry);
        }
    }

    // The beginning

    /// Begins a collection: from now on its zones are being prepared.
    pub fn begin(&mut self, zones: u64) {
        self.zones = zones;
        self.preparing = zones;
        self.uncleared = 0..self.heap.arenas.len();
        self.heap.born_white = zones;
    }

    /// Clears the bits of arenas that are still to be cleared.
    fn clear_units(&mut self, limit: u64) -> u64 {
        let mut done = 0;
        while done < limit
            && let Some(index) = self.uncleared.next()
        {
            let arena = &mut self.heap.arenas[index];
            if self.preparing >> arena.zone & 1 == 1 {
                (arena.black, arena.marked) = (0, 0);
                done += 1;
            }
        }
        done
    }

    /// Begins marking: the zones are white, the black starts are marked, and the gray ones wait.
    fn start(&mut self, output: &mut Output) {
        let zones = self.zones;
        self.preparing = 0;
        self.heap.born_white = 0;
        self.marking = zones;
        self.ungrouped = zones;
        self.search = Search::default();
        self.groups.clear();
        self.ended = 0;
        for zone in members(zones) {
            self.heap.zones[zone].looked_at = 0;
        }
        output.line("started");
        for register in 0..self.heap.registers.len() {
            let place = self.heap.registers[register];
            if place != NONE && self.takes_black(place) {
                self.mark_black(place);
            }
        }
        for slot in 0..self.heap.slots.len() {
            let place = self.heap.slots[slot];
            if place != NONE && self.takes_black(place) {
                self.wait_for_gray(place);
            }
        }
        for zone in 0..self.heap.zones.len() {
            if zones >> zone & 1 == 0 && members(zones).any(|to| self.heap.zones[zone].wrappers_to[to] != 0) {
                self.start_from_wrappers(zone);
            }
        }
    }

    /// The wrappers of a zone that is left out are starts of their own colours.
    fn start_from_wrappers(&mut self, zone: usize) {
        for index in 0..self.heap.zones[zone].wrappers.len() {
            let wrapper = self.heap.zones[zone].wrappers[index];
            let target = self.heap.cell(wrapper).fields[0];
            if !self.takes_black(target) {
                continue;
            }
            if self.heap.is_black(wrapper) {
                self.mark_black(target);
            } else {
                self.wait_for_gray(target);
            }
        }
    }

    /// The gray marking of the cell's zone will mark it.
    fn wait_for_gray(&mut self, place: Place) {
        let zone = self.heap.zone_of(place);
        self.heap.zones[zone].waiting.push(place);
    }

    // Units

    /// Does at most so many units, until the collection is over. Answers how many it did.
    pub fn work(&mut self, limit: u64, output: &mut Output) -> u64 {
        let mut left = limit;
        while left > 0 && self.is_running() {
            left -= self.units(left, output);
        }
        limit - left
    }

    /// Does units of the first kind that has work: at least one, and at most `limit`.
    fn units(&mut self, limit: u64, output: &mut Output) -> u64 {
        if self.preparing != 0 {
            let done = self.clear_units(limit);
            if done == 0 {
                self.start(output);
            }
            return done.max(1);
        }
        let done = self.black_units(limit);
        if done > 0 {
            return done;
        }
        if self.ungrouped != 0 {
            let done = self.look_units(limit);
            if done == 0 {
                self.grouping_unit(output);
            }
            return done.max(1);
        }
        let group = self.groups.get(self.ended).copied().unwrap_or(0);
        let waiting = group & !self.graying;
        if waiting != 0 {
            self.begin_gray(lowest(waiting));
            return 1;
        }
        let done = self.gray_units(limit);
        if done > 0 {
            return done;
        }
        if self.taken < self.out.len() {
            return self.take_units(limit, output);
        }
        self.end_group(group, output);
        1
    }

    fn black_units(&mut self, limit: u64) -> u64 {
        let mut done = 0;
        while done < limit {
            if let Some(place) = self.black.pop(&self.heap.cells) {
                self.follow_black(place);
            } else if let Some(walk) = self.black_walks.pop() {
                self.look_for_black(walk);
            } else {
                break;
            }
            done += 1;
        }
        done
    }

    #[inline(always)]
    fn follow_black(&mut self, place: Place) {
        let Heap { cells, arenas, .. } = &mut self.heap;
        let cell = &cells[place as usize];
        match cell.kind {
            MAP => self.black_walks.extend(walk_of(&self.heap, By::Map, place)),
            WRAPPER => {
                let target = cell.fields[0];
                self.expose(target);
            }
            // What a field holds is of the cell's zone.
            fields => {
                for target in &cell.fields[..usize::from(fields)] {
                    if *target != NONE {
                        let arena = &mut arenas[arena_of(*target)];
                        if arena.black & bit_of(*target) == 0 {
                            arena.black |= bit_of(*target);
                            self.black.push(*target);
                        }
                    }
                }
            }
        }
        let cell = self.heap.cell(place);
        let is_delegate = cell.is_delegate;
        if cell.is_key {
            self.black_walks.extend(walk_of(&self.heap, By::Key, place));
        }
        if is_delegate {
            self.raise_keys_of(place);
        }
    }

    /// Each key that is a wrapper of this cell gets the lesser colour of its map and this one.
    #[cold]
    fn raise_keys_of(&mut self, place: Place) {
        for entry in self.heap.entries_of_delegate(place).to_vec() {
            self.raise_key(self.heap.entries[entry as usize]);
        }
    }

    /// A key that is a wrapper gets the lesser colour of its map and of what it leads to.
    #[inline(always)]
    fn raise_key(&mut self, entry: Entry) {
        if let Some(delegate) = self.heap.delegate(&entry) {
            self.raise_key_by(entry, delegate);
        }
    }

    #[cold]
    fn raise_key_by(&mut self, entry: Entry, delegate: Place) {
        if entry.value == NONE {
            return;
        }
        if self.heap.is_black(entry.map) && self.heap.is_black(delegate) {
            self.expose(entry.key);
        } else if self.graying >> self.heap.zone_of(entry.map) & 1 == 1
            && !self.heap.is_white(entry.map)
            && !self.heap.is_white(delegate)
        {
            self.mark_gray(entry.key);
        }
    }

    /// An entry's value gets the lesser colour of its map and its key.
    fn look_for_black(&mut self, walk: Walk) {
        let entry = self.heap.entries[walk.entry as usize];
        if entry.value != NONE {
            self.raise_key(entry);
            if self.heap.is_black(entry.map) && self.heap.is_black(entry.key) {
                self.mark_black(entry.value);
            } else if self.graying >> self.heap.zone_of(entry.map) & 1 == 1 {
                // The map or the key turned black in the midst of gray marking, so no gray walk may come here.
                self.give_gray(entry);
            }
        }
        self.black_walks.extend(rest_of(&self.heap, walk));
    }

    fn look_units(&mut self, limit: u64) -> u64 {
        let mut done = 0;
        for zone in members(self.zones) {
            let wrappers = &self.heap.zones[zone].wrappers;
            let first = self.heap.zones[zone].looked_at;
            let last = first + at_most(wrappers.len() - first, limit - done);
            for wrapper in &wrappers[first..last] {
                let target = self.heap.cell(*wrapper).fields[0];
                let to = self.heap.zone_of(target);
                if to != zone && self.zones >> to & 1 == 1 && !self.heap.is_black(target) {
                    self.search.add_edge(zone, to);
                    if self.heap.is_key_now(*wrapper) {
                        self.search.add_edge(to, zone);
                    }
                }
            }
            done += (last - first) as u64;
            self.heap.zones[zone].looked_at = last;
        }
        done
    }

    fn grouping_unit(&mut self, output: &mut Output) {
        let zone = lowest(self.ungrouped);
        self.search.visit(zone.trailing_zeros() as usize);
        self.ungrouped &= !zone;
        if self.ungrouped == 0 {
            self.groups = self.search.take_groups();
            output.text("groups");
            for (index, group) in self.groups.iter().enumerate() {
                if index > 0 {
                    output.text(" |");
                }
                output.zones(*group);
            }
            output.end_line();
        }
    }

    /// A zone of the current group begins its gray marking. What lies outside the collection is not followed then, so
    /// the keys that it may keep are looked at now.
    fn begin_gray(&mut self, zone: u64) {
        self.graying |= zone;
        for entry in self.heap.delegated_in(zone.trailing_zeros() as usize) {
            self.raise_key(self.heap.entries[entry as usize]);
        }
    }

    fn gray_units(&mut self, limit: u64) -> u64 {
        // What waits comes first: many cells are on their way at once then.
        let mut done = self.waiting_units(limit);
        while done < limit {
            if let Some(place) = self.gray.pop(&self.heap.cells) {
                self.follow_gray(place);
            } else if let Some(walk) = self.gray_walks.pop() {
                self.look_for_gray(walk);
            } else {
                break;
            }
            done += 1;
        }
        done
    }

    fn waiting_units(&mut self, limit: u64) -> u64 {
        let mut done = 0;
        for zone in members(self.graying) {
            while done < limit {
                let Some(place) = self.heap.zones[zone].waiting.pop() else {
                    break;
                };
                self.mark_gray(place);
                done += 1;
            }
        }
        done
    }

    /// Marks a cell of the current group.
    #[inline(always)]
    fn mark_gray(&mut self, place: Place) {
        if self.heap.is_white(place) {
            self.heap.arenas[arena_of(place)].marked |= bit_of(place);
            self.gray.push(place);
        }
    }

    #[inline(always)]
    fn follow_gray(&mut self, place: Place) {
        // Black marking has followed it, or will.
        if self.heap.is_black(place) {
            return;
        }
        let Heap { cells, arenas, .. } = &mut self.heap;
        let cell = &cells[place as usize];
        match cell.kind {
            MAP => self.gray_walks.extend(walk_of(&self.heap, By::Map, place)),
            WRAPPER => {
                let target = cell.fields[0];
                self.follow_gray_wrapper(target);
            }
            fields => {
                for target in &cell.fields[..usize::from(fields)] {
                    if *target != NONE {
                        let arena = &mut arenas[arena_of(*target)];
                        if (arena.black | arena.marked) & bit_of(*target) == 0 {
                            arena.marked |= bit_of(*target);
                            self.gray.push(*target);
                        }
                    }
                }
            }
        }
        let cell = self.heap.cell(place);
        let is_delegate = cell.is_delegate;
        if cell.is_key {
            self.gray_walks.extend(walk_of(&self.heap, By::Key, place));
        }
        if is_delegate {
            self.raise_keys_of(place);
        }
    }

    /// Gray marking does not leave the current group: what lies in a later one waits there.
    fn follow_gray_wrapper(&mut self, target: Place) {
        let zone = self.heap.zone_of(target);
        if self.graying >> zone & 1 == 1 {
            self.mark_gray(target);
        } else if self.marking >> zone & 1 == 1 && !self.heap.is_black(target) {
            self.wait_for_gray(target);
        }
    }

    fn look_for_gray(&mut self, walk: Walk) {
        let entry = self.heap.entries[walk.entry as usize];
        if entry.value != NONE {
            self.raise_key(entry);
            self.give_gray(entry);
        }
        self.gray_walks.extend(rest_of(&self.heap, walk));
    }

    /// An entry's value becomes gray when its map and its key are gray or black.
    fn give_gray(&mut self, entry: Entry) {
        if !self.heap.is_white(entry.map) && !self.heap.is_white(entry.key) {
            self.mark_gray(entry.value);
        }
    }

    /// The zones of the current group stop marking; what is white in them is not present any more.
    fn end_group(&mut self, group: u64, output: &mut Output) {
        self.marking &= !group;
        self.graying = 0;
        self.ended += 1;
        self.out = self.heap.arenas_of(group);
        self.taken = 0;
        output.text("ended");
        output.zones(group);
        output.text(" gray");
        self.write_gray_names(output);
        self.heap.unlink_removed();
        for zone in members(group) {
            self.heap.drop_white_entries(zone);
            self.heap.drop_white_wrappers(zone);
            self.heap.hand_out(zone);
        }
        self.end_when_done(output);
    }

    /// Writes the gray names of the arenas in `out`.
    fn write_gray_names(&mut self, output: &mut Output) {
        self.names.clear();
        for arena in &self.out {
            self.heap.add_names(*arena, self.heap.arenas[*arena as usize].gray(), &mut self.names);
        }
        output.names(&mut self.names);
    }

    fn take_units(&mut self, limit: u64, output: &mut Output) -> u64 {
        let count = at_most(self.out.len() - self.taken, limit);
        for index in self.taken..self.taken + count {
            let arena = self.out[index];
            self.names.clear();
            self.heap.take_in(arena, &mut self.names);
            output.text("swept ");
            output.number(u64::from(arena));
            output.names(&mut self.names);
            output.hand_on_much();
        }
        self.taken += count;
        self.end_when_done(output);
        count as u64
    }

    fn end_when_done(&mut self, output: &mut Output) {
        if self.taken == self.out.len() && self.ended == self.groups.len() {
            self.zones = 0;
            output.line("done");
        }
    }

    /// Writes all gray names of the heap.
    pub fn write_colours(&mut self, output: &mut Output) {
        output.text("gray");
        self.names.clear();
        for (index, arena) in self.heap.arenas.iter().enumerate() {
            self.heap.add_names(index as u32, arena.gray(), &mut self.names);
        }
        output.names(&mut self.names);
    }
}

/// A number of things, or the limit when that is less.
fn at_most(count: usize, limit: u64) -> usize {
    if limit < count as u64 { limit as usize } else { count }
}

/// A walk through the entries of a map or key, unless it has none.
fn walk_of(heap: &Heap, by: By, place: Place) -> Option<Walk> {
    let entry = heap.first_entry(by, place);
    (entry != NONE).then_some(Walk { entry, by })
}

fn rest_of(heap: &Heap, walk: Walk) -> Option<Walk> {
    let entry = heap.entry_after(walk.by, walk.entry);
    (entry != NONE).then_some(Walk { entry, ..walk })
}
