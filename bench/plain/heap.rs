//! The heap: cells in arenas, zones, wrappers, and entries of weak maps.
//!
//! A place is the number of an arena, times 64, and a slot. The cells lie in one vector by place. Nothing here knows of
//! a collection but for the bits of the arenas.

use std::collections::HashMap;
use std::hash::{BuildHasherDefault, Hasher};

use crate::output::Names;
use crate::sets::{NumberSet, members};

pub type Place = u32;

/// Stands for no place, no entry.
pub const NONE: u32 = u32::MAX;

pub const SLOTS: usize = 64;
pub const ZONES: usize = 64;
pub const COMPS: usize = 256;

/// The kinds of cell: up to 8 an object with so many fields.
pub const OBJECT_LIMIT: u8 = 8;
pub const MAP: u8 = 9;
pub const WRAPPER: u8 = 10;

/// Its head comes first, so that the head and the first fields are mostly fetched as one.
#[derive(Clone, Copy)]
#[repr(C)]
pub struct Cell {
    /// The number of an object or a map; of a wrapper, that of its target.
    pub number: u32,
    pub comp: u8,
    pub kind: u8,
    /// Whether an entry had this cell for its key.
    pub is_key: bool,
    /// Whether an entry had a wrapper of this cell for its key.
    pub is_delegate: bool,
    /// An object's fields; a wrapper's target in the first; the first entry of a map in the first.
    pub fields: [Place; OBJECT_LIMIT as usize],
}

const NO_CELL: Cell =
    Cell { number: 0, comp: 0, kind: 0, is_key: false, is_delegate: false, fields: [NONE; OBJECT_LIMIT as usize] };

#[derive(Clone, Copy)]
pub struct Arena {
    pub used: u64,
    /// The slots whose cells are black.
    pub black: u64,
    /// The slots whose cells were marked gray, and are black or gray.
    pub marked: u64,
    /// Its number among the arenas of its zone.
    index: u32,
    pub zone: u8,
}

impl Arena {
    pub fn gray(&self) -> u64 {
        self.used & self.marked & !self.black
    }

    pub fn white(&self) -> u64 {
        self.used & !(self.marked | self.black)
    }
}

#[derive(Default)]
pub struct Zone {
    pub arenas: Vec<u32>,
    /// The indexes of the arenas that have a free slot and are not out.
    free: NumberSet,
    /// In the order of making.
    pub wrappers: Vec<Place>,
    /// How many of its wrappers lead to each zone.
    pub wrappers_to: Vec<u32>,
    /// How many entries of weak maps lie in it.
    entries: u32,
    /// What waits for gray marking.
    pub waiting: Vec<Place>,
    /// How many wrappers were looked at.
    pub looked_at: usize,
}

/// An entry of a weak map. It is in the list of its map and in the list of its key.
#[derive(Clone, Copy)]
pub struct Entry {
    pub map: Place,
    pub key: Place,
    pub value: Place,
    links: [Link; 2],
}

#[derive(Clone, Copy)]
struct Link {
    before: u32,
    after: u32,
}

const NO_LINK: Link = Link { before: NONE, after: NONE };

/// Which of the two lists of an entry.
#[derive(Clone, Copy, PartialEq)]
pub enum By {
    Map,
    Key,
}

/// Spreads the bits of keys that are numbers.
#[derive(Default)]
pub struct NumberHasher(u64);

impl Hasher for NumberHasher {
    fn finish(&self) -> u64 {
        self.0
    }

    fn write(&mut self, _: &[u8]) {
        unreachable!("keys are words");
    }

    fn write_u64(&mut self, number: u64) {
        let product = u128::from(number) * 0x9e37_79b9_7f4a_7c15_f39c_c060_5ced_c835;
        self.0 = product as u64 ^ (product >> 64) as u64;
    }
}

type NumberMap = HashMap<u64, u32, BuildHasherDefault<NumberHasher>>;
type ListMap = HashMap<u64, Vec<u32>, BuildHasherDefault<NumberHasher>>;

pub struct Heap {
    pub cells: Vec<Cell>,
    pub arenas: Vec<Arena>,
    pub zones: Vec<Zone>,
    pub comps: Vec<u8>,
    pub registers: [Place; 16],
    pub slots: [Place; 64],
    pub made: u32,
    /// The zones in which cells are born white.
    pub born_white: u64,
    /// By compartment and number of the target.
    wrappers: NumberMap,
    /// By map and key.
    entry_of: NumberMap,
    pub entries: Vec<Entry>,
    free_entry: u32,
    /// Entries that were removed and stand in their lists still.
    removed: Vec<u32>,
    /// For each arena with keys the first entry of each.
    first_of_key: Vec<Option<Box<[u32; SLOTS]>>>,
    /// The entries whose keys are wrappers, by what these lead to.
    delegated: ListMap,
}

#[inline(always)]
pub fn arena_of(place: Place) -> usize {
    place as usize / SLOTS
}

#[inline(always)]
pub fn bit_of(place: Place) -> u64 {
    1 << (place as usize % SLOTS)
}

fn pair(a: u32, b: u32) -> u64 {
    u64::from(a) << 32 | u64::from(b)
}

impl Heap {
    pub fn new() -> Self {
        Heap {
            cells: Vec::new(),
            arenas: Vec::new(),
            zones: Vec::new(),
            comps: Vec::new(),
            registers: [NONE; 16],
            slots: [NONE; 64],
            made: 0,
            born_white: 0,
            wrappers: NumberMap::default(),
            entry_of: NumberMap::default(),
            entries: Vec::new(),
            free_entry: NONE,
            removed: Vec::new(),
            first_of_key: Vec::new(),
            delegated: ListMap::default(),
        }
    }

    #[inline(always)]
    pub fn cell(&self, place: Place) -> &Cell {
        &self.cells[place as usize]
    }

    #[inline(always)]
    pub fn zone_of(&self, place: Place) -> usize {
        usize::from(self.arenas[arena_of(place)].zone)
    }

    #[inline(always)]
    pub fn is_black(&self, place: Place) -> bool {
        self.arenas[arena_of(place)].black & bit_of(place) != 0
    }

    #[inline(always)]
    pub fn is_white(&self, place: Place) -> bool {
        let arena = &self.arenas[arena_of(place)];
        (arena.black | arena.marked) & bit_of(place) == 0
    }

    pub fn add_zone(&mut self) {
        self.zones.push(Zone { wrappers_to: vec![0; ZONES], ..Zone::default() });
    }

    fn add_arena(&mut self, zone: u8) -> u32 {
        let number = self.arenas.len() as u32;
        let home = &mut self.zones[usize::from(zone)];
        let index = home.arenas.len();
        home.arenas.push(number);
        home.free.insert(index);
        self.arenas.push(Arena { used: 0, black: 0, marked: 0, index: index as u32, zone });
        self.cells.resize(self.cells.len() + SLOTS, NO_CELL);
        number
    }

    /// Puts a cell at the lowest free place of its zone. It is black, where cells are not born white.
    #[inline(always)]
    pub fn add_cell(&mut self, comp: u8, kind: u8, number: u32) -> Place {
        let zone = self.comps[usize::from(comp)];
        let home = &mut self.zones[usize::from(zone)];
        let number_of_arena = match home.free.least() {
            Some(index) => home.arenas[index],
            None => self.add_arena(zone),
        };
        let arena = &mut self.arenas[number_of_arena as usize];
        let slot = arena.used.trailing_ones();
        arena.used |= 1 << slot;
        arena.black |= (!self.born_white >> zone & 1) << slot;
        if arena.used == u64::MAX {
            self.zones[usize::from(zone)].free.remove(arena.index as usize);
        }
        let place = number_of_arena * SLOTS as u32 + slot;
        self.cells[place as usize] = Cell { number, comp, kind, ..NO_CELL };
        place
    }

    /// The arenas of some zones, ascending.
    pub fn arenas_of(&self, zones: u64) -> Vec<u32> {
        let mut arenas = Vec::with_capacity(members(zones).map(|zone| self.zones[zone].arenas.len()).sum());
        for zone in members(zones) {
            arenas.extend_from_slice(&self.zones[zone].arenas);
        }
        // The arenas of each zone ascend, and a stable sort merges such runs.
        arenas.sort();
        arenas
    }

    /// No cell is put into the arenas of this zone before they are taken in, but for new ones.
    pub fn hand_out(&mut self, zone: usize) {
        self.zones[zone].free.clear();
    }

    /// Frees the white cells of an arena and adds their names.
    pub fn take_in(&mut self, number: u32, names: &mut Names) {
        let white = self.arenas[number as usize].white();
        self.add_names(number, white, names);
        let arena = &mut self.arenas[number as usize];
        arena.used &= !white;
        if arena.used != u64::MAX {
            self.zones[usize::from(arena.zone)].free.insert(arena.index as usize);
        }
    }

    /// Adds the names of some cells of an arena.
    pub fn add_names(&self, arena: u32, slots: u64, names: &mut Names) {
        let first = arena as usize * SLOTS;
        for slot in members(slots) {
            let cell = &self.cells[first + slot];
            if cell.kind == WRAPPER {
                names.add_wrapper(cell.comp, cell.number);
            } else {
                names.add(cell.number);
            }
        }
    }

    // Wrappers

    pub fn wrapper_of(&self, comp: u8, target: u32) -> Option<Place> {
        self.wrappers.get(&pair(u32::from(comp), target)).copied()
    }

    pub fn add_wrapper(&mut self, comp: u8, target: Place) -> Place {
        let number = self.cell(target).number;
        let place = self.add_cell(comp, WRAPPER, number);
        self.cells[place as usize].fields[0] = target;
        let to = self.zone_of(target);
        let zone = &mut self.zones[usize::from(self.comps[usize::from(comp)])];
        zone.wrappers.push(place);
        zone.wrappers_to[to] += 1;
        self.wrappers.insert(pair(u32::from(comp), number), place);
        place
    }

    /// Drops the white wrappers of a zone from the lists.
    pub fn drop_white_wrappers(&mut self, zone: usize) {
        let mut wrappers = std::mem::take(&mut self.zones[zone].wrappers);
        wrappers.retain(|wrapper| {
            let is_white = self.is_white(*wrapper);
            if is_white {
                let cell = &self.cells[*wrapper as usize];
                self.wrappers.remove(&pair(u32::from(cell.comp), cell.number));
                let to = self.zone_of(cell.fields[0]);
                self.zones[zone].wrappers_to[to] -= 1;
            }
            !is_white
        });
        self.zones[zone].wrappers = wrappers;
    }

    // Entries of weak maps

    pub fn entry(&self, map: Place, key: Place) -> Option<u32> {
        self.entry_of.get(&pair(map, key)).copied()
    }

    /// The first entry of a map or of a key, or `NONE`.
    pub fn first_entry(&self, by: By, place: Place) -> u32 {
        match by {
            By::Map => self.cell(place).fields[0],
            By::Key => match self.first_of_key.get(arena_of(place)) {
                Some(Some(firsts)) => firsts[place as usize % SLOTS],
                _ => NONE,
            },
        }
    }

    /// Whether an entry has this cell for its key.
    pub fn is_key_now(&self, place: Place) -> bool {
        let mut entry = if self.cell(place).is_key { self.first_entry(By::Key, place) } else { NONE };
        while entry != NONE && self.entries[entry as usize].value == NONE {
            entry = self.entry_after(By::Key, entry);
        }
        entry != NONE
    }

    /// What the key of an entry leads to, when it is a wrapper.
    #[inline(always)]
    pub fn delegate(&self, entry: &Entry) -> Option<Place> {
        if self.delegated.is_empty() {
            return None;
        }
        let key = self.cell(entry.key);
        (key.kind == WRAPPER).then_some(key.fields[0])
    }

    /// The entries whose keys are wrappers of a cell.
    pub fn entries_of_delegate(&self, place: Place) -> &[u32] {
        self.delegated.get(&u64::from(place)).map_or(&[], Vec::as_slice)
    }

    /// The entries of the maps of a zone whose keys are wrappers.
    pub fn delegated_in(&self, zone: usize) -> Vec<u32> {
        let all = self.delegated.values().flatten().copied();
        all.filter(|entry| self.zone_of(self.entries[*entry as usize].map) == zone).collect()
    }

    pub fn entry_after(&self, by: By, entry: u32) -> u32 {
        self.entries[entry as usize].links[by as usize].after
    }

    fn set_first_entry(&mut self, by: By, place: Place, entry: u32) {
        match by {
            By::Map => self.cells[place as usize].fields[0] = entry,
            By::Key => {
                let arena = arena_of(place);
                if self.first_of_key.len() <= arena {
                    self.first_of_key.resize(arena + 1, None);
                }
                self.first_of_key[arena].get_or_insert_with(|| Box::new([NONE; SLOTS]))[place as usize % SLOTS] = entry;
            }
        }
    }

    fn link(&mut self, by: By, place: Place, entry: u32) {
        let after = self.first_entry(by, place);
        self.entries[entry as usize].links[by as usize] = Link { before: NONE, after };
        if after != NONE {
            self.entries[after as usize].links[by as usize].before = entry;
        }
        self.set_first_entry(by, place, entry);
    }

    fn unlink(&mut self, by: By, place: Place, entry: u32) {
        let Link { before, after } = self.entries[entry as usize].links[by as usize];
        if before == NONE {
            self.set_first_entry(by, place, after);
        } else {
            self.entries[before as usize].links[by as usize].after = after;
        }
        if after != NONE {
            self.entries[after as usize].links[by as usize].before = before;
        }
    }

    pub fn add_entry(&mut self, map: Place, key: Place, value: Place) {
        let new = Entry { map, key, value, links: [NO_LINK; 2] };
        let entry = self.free_entry;
        let entry = if entry == NONE {
            self.entries.push(new);
            self.entries.len() as u32 - 1
        } else {
            self.free_entry = self.entry_after(By::Map, entry);
            self.entries[entry as usize] = new;
            entry
        };
        self.link(By::Map, map, entry);
        self.link(By::Key, key, entry);
        self.cells[key as usize].is_key = true;
        let Cell { kind, fields: [delegate, ..], .. } = self.cells[key as usize];
        if kind == WRAPPER {
            self.cells[delegate as usize].is_delegate = true;
            self.delegated.entry(u64::from(delegate)).or_default().push(entry);
        }
        self.entry_of.insert(pair(map, key), entry);
        let zone = self.zone_of(map);
        self.zones[zone].entries += 1;
    }

    /// Removes an entry. It has no value then, and stays in its two lists until `unlink_removed`, since marking may be
    /// on its way through them.
    pub fn remove_entry(&mut self, entry: u32) {
        let Entry { map, key, .. } = self.entries[entry as usize];
        self.entry_of.remove(&pair(map, key));
        self.entries[entry as usize].value = NONE;
        self.removed.push(entry);
        let zone = self.zone_of(map);
        self.zones[zone].entries -= 1;
    }

    pub fn unlink_removed(&mut self) {
        while let Some(entry) = self.removed.pop() {
            let Entry { map, key, .. } = self.entries[entry as usize];
            self.unlink(By::Map, map, entry);
            self.unlink(By::Key, key, entry);
            self.forget_delegate(key, entry);
            self.entries[entry as usize].links[By::Map as usize].after = self.free_entry;
            self.free_entry = entry;
        }
    }

    fn forget_delegate(&mut self, key: Place, entry: u32) {
        let Cell { kind, fields: [delegate, ..], .. } = self.cells[key as usize];
        if kind == WRAPPER
            && let Some(listed) = self.delegated.get_mut(&u64::from(delegate))
        {
            listed.retain(|other| *other != entry);
            if listed.is_empty() {
                self.delegated.remove(&u64::from(delegate));
            }
        }
    }

    /// Removes the entries of a zone whose map or key is white.
    pub fn drop_white_entries(&mut self, zone: usize) {
        if self.zones[zone].entries == 0 {
            return;
        }
        for index in 0..self.zones[zone].arenas.len() {
            let arena = self.zones[zone].arenas[index];
            for slot in members(self.arenas[arena as usize].white()) {
                let place = arena * SLOTS as u32 + slot as u32;
                if self.cell(place).kind == MAP {
                    self.remove_list(By::Map, place);
                }
                if self.cell(place).is_key {
                    self.remove_list(By::Key, place);
                }
            }
        }
        self.unlink_removed();
    }

    fn remove_list(&mut self, by: By, place: Place) {
        let mut entry = self.first_entry(by, place);
        while entry != NONE {
            if self.entries[entry as usize].value != NONE {
                self.remove_entry(entry);
            }
            entry = self.entry_after(by, entry);
        }
    }
}
