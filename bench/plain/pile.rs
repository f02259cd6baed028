//! The cells that were marked and are to be followed.

use crate::heap::{Cell, Place};

/// How many cells are fetched ahead.
const AHEAD: usize = 16;

/// A stack whose last cells are on their way into the cache: what is popped goes through a short queue first.
#[derive(Default)]
pub struct Pile {
    stack: Vec<Place>,
    queue: [Place; AHEAD],
    first: usize,
    count: usize,
}

impl Pile {
    #[inline(always)]
    pub fn push(&mut self, place: Place) {
        self.stack.push(place);
    }

    /// Any cell of the pile. `cells` are those of the heap.
    #[inline(always)]
    pub fn pop(&mut self, cells: &[Cell]) -> Option<Place> {
        while self.count < AHEAD {
            let Some(place) = self.stack.pop() else {
                break;
            };
            fetch(&cells[place as usize]);
            self.queue[(self.first + self.count) % AHEAD] = place;
            self.count += 1;
        }
        if self.count == 0 {
            return None;
        }
        let place = self.queue[self.first];
        self.first = (self.first + 1) % AHEAD;
        self.count -= 1;
        Some(place)
    }
}

/// Asks the processor for a cell, and does not wait for it.
#[inline(always)]
fn fetch(cell: &Cell) {
    #[cfg(target_arch = "x86_64")]
    // SAFETY: a prefetch reads nothing that a program can see, and the address is that of a cell.
    unsafe {
        use std::arch::x86_64::{_MM_HINT_T0, _mm_prefetch};
        _mm_prefetch::<_MM_HINT_T0>(std::ptr::from_ref(cell).cast());
    }
    #[cfg(not(target_arch = "x86_64"))]
    let _ = cell;
}
