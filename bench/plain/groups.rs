//! The sweep groups: the strongly connected components of the edges between zones, each after those from which edges
//! lead to it.

use crate::heap::ZONES;
use crate::sets::members;

pub struct Search {
    /// For each zone the zones from which an edge leads to it.
    sources: [u64; ZONES],
    seen: u64,
    groups: Vec<u64>,
    grouped: u64,
}

/// Zones that lead to each other, and the zones from which an edge leads to one of them.
struct Level {
    zones: u64,
    sources: u64,
}

impl Default for Search {
    fn default() -> Self {
        Search { sources: [0; ZONES], seen: 0, groups: Vec::new(), grouped: 0 }
    }
}

impl Search {
    pub fn add_edge(&mut self, from: usize, to: usize) {
        self.sources[to] |= 1 << from;
    }

    pub fn take_groups(&mut self) -> Vec<u64> {
        std::mem::take(&mut self.groups)
    }

    fn level_of(&mut self, zone: usize) -> Level {
        self.seen |= 1 << zone;
        Level { zones: 1 << zone, sources: self.sources[zone] }
    }

    /// Finds the groups of all zones that lead to this one. Each level on the path leads to the one before it.
    pub fn visit(&mut self, zone: usize) {
        if self.seen >> zone & 1 == 1 {
            return;
        }
        let mut path = Vec::new();
        let mut last = self.level_of(zone);
        loop {
            if let Some(source) = members(last.sources & !self.seen).next() {
                path.push(last);
                last = self.level_of(source);
                continue;
            }
            let leads_back = last.sources & !self.grouped & !last.zones != 0;
            if !leads_back {
                self.groups.push(last.zones);
                self.grouped |= last.zones;
            }
            let Some(before) = path.pop() else {
                return;
            };
            last = match leads_back {
                true => Level { zones: before.zones | last.zones, sources: before.sources | last.sources },
                false => before,
            };
        }
    }
}
