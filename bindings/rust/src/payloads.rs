//! Data of a program's own beside the cells of a heap.

use std::collections::HashMap;

use crate::{Event, Name};

/// Data by the names of cells, of one heap. A name is given once; that of a wrapper may come again, but only after an
/// event named it as freed. So data that is let go at each event belongs to the cell that bears the name now.
///
/// ```
/// use gczone::{Heap, Payloads, REGISTERS};
///
/// # fn main() -> Result<(), gczone::Error> {
/// let mut heap = Heap::new()?;
/// let mut texts = Payloads::new();
/// let zone = heap.zone()?;
/// let compartment = heap.compartment(zone)?;
/// let name = heap.object(REGISTERS[0], compartment, 0)?;
/// texts.insert(name, "a text".to_owned());
/// heap.empty(REGISTERS[0])?;
/// heap.begin(&[zone])?;
/// for event in heap.events(1000) {
///     for (name, text) in texts.let_go(&event?) {
///         println!("{name} had {text}");
///     }
/// }
/// assert!(texts.is_empty());
/// # Ok(())
/// # }
/// ```
#[derive(Clone, Debug, PartialEq, Eq)]
pub struct Payloads<T> {
    by_name: HashMap<Name, T>,
}

impl<T> Payloads<T> {
    /// No data.
    pub fn new() -> Payloads<T> {
        Payloads { by_name: HashMap::new() }
    }

    /// Gives a cell its data, and returns what it had before.
    pub fn insert(&mut self, name: Name, data: T) -> Option<T> {
        self.by_name.insert(name, data)
    }

    /// The data of a cell.
    pub fn get(&self, name: Name) -> Option<&T> {
        self.by_name.get(&name)
    }

    /// The data of a cell, to be changed.
    pub fn get_mut(&mut self, name: Name) -> Option<&mut T> {
        self.by_name.get_mut(&name)
    }

    /// Takes the data of a cell away.
    pub fn remove(&mut self, name: Name) -> Option<T> {
        self.by_name.remove(&name)
    }

    /// Takes away the data of the cells that an event names as freed, and returns it in the event's order.
    pub fn let_go(&mut self, event: &Event) -> Vec<(Name, T)> {
        match event {
            Event::Swept { freed, .. } => {
                freed.iter().filter_map(|name| Some((*name, self.by_name.remove(name)?))).collect()
            }
            Event::Started | Event::Groups(_) | Event::Ended { .. } | Event::Stopped(_) => Vec::new(),
        }
    }

    /// How many cells have data.
    pub fn len(&self) -> usize {
        self.by_name.len()
    }

    /// Whether no cell has data.
    pub fn is_empty(&self) -> bool {
        self.by_name.is_empty()
    }
}

impl<T> Default for Payloads<T> {
    fn default() -> Payloads<T> {
        Payloads::new()
    }
}
