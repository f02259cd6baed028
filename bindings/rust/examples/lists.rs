//! A list machine: pairs and numbers of a Lisp, collected in slices while it evaluates. It does what
//! bindings/c/examples/lists.c does, and prints the same.
//!
//! Zone 0 has the lists. The machine's stack has a pinned root for each value. What a number is worth stands beside the
//! heap, by the name of its cell, and goes as an event names the cell.
//! Zone 1 has the closures: an object that leads by a wrapper to the list that it captured, held by a gray slot.

use gczone::{Compartment, Error, Heap, Name, Payloads, Register, Result, Root, Slot, Zone, REGISTERS, SLOTS};

const LEFT: Register = REGISTERS[0];
const RIGHT: Register = REGISTERS[1];
const CELL: Register = REGISTERS[2];
const ROUNDS: usize = 300;
const LENGTH: i64 = 20;
const CLOSURES: usize = 8;
const SLICE: u64 = 24;
const CELLS_BETWEEN: u64 = 2000;

struct Machine {
    heap: Heap,
    /// The values; the empty list has no cell.
    stack: Vec<Option<Root>>,
    zones: [Zone; 2],
    lists: Compartment,
    code: Compartment,
    worth: Payloads<i64>,
    let_go: usize,
    collections: u64,
    made_since: u64,
}

impl Machine {
    fn new() -> Result<Machine> {
        let mut heap = Heap::new()?;
        let zones = [heap.zone()?, heap.zone()?];
        let (lists, code) = (heap.compartment(zones[0])?, heap.compartment(zones[1])?);
        let (stack, worth) = (Vec::new(), Payloads::new());
        Ok(Machine { heap, stack, zones, lists, code, worth, let_go: 0, collections: 0, made_since: 0 })
    }

    /// Goes on with the collection that runs. Returns whether it still does.
    fn step(&mut self, limit: u64) -> Result<bool> {
        if let Some(event) = self.heap.advance(limit)?.event {
            self.let_go += self.worth.let_go(&event).len();
        }
        Ok(self.heap.is_running())
    }

    fn begin(&mut self) -> Result<()> {
        self.heap.begin(&self.zones)?;
        self.collections += 1;
        self.made_since = 0;
        Ok(())
    }

    /// Makes a cell in the register CELL. Each cell pays for a slice of the collection that runs, if one does.
    fn make(&mut self, compartment: Compartment, fields: u8) -> Result<Name> {
        if !self.step(SLICE)? && self.made_since >= CELLS_BETWEEN {
            self.begin()?;
        }
        self.made_since += 1;
        self.heap.object(CELL, compartment, fields)
    }

    /// A field gets what a register holds, which may be nothing.
    fn set(&mut self, register: Register, field: u8, from: Register) -> Result<()> {
        match self.heap.set(register, field, Some(from)) {
            Err(Error::Empty) => self.heap.set(register, field, None),
            done => done,
        }
    }

    /// Makes a pair of two registers in the register CELL.
    fn pair(&mut self, head: Register, tail: Register) -> Result<()> {
        self.make(self.lists, 2)?;
        self.set(CELL, 0, head)?;
        self.set(CELL, 1, tail)
    }

    /// Pushes what a register holds, and leaves that register empty.
    fn push(&mut self, register: Register) -> Result<()> {
        self.stack.push(match self.heap.pin(register) {
            Err(Error::Empty) => None,
            root => Some(root?),
        });
        self.heap.empty(register)
    }

    fn pop(&mut self, register: Register) -> Result<()> {
        match self.stack.pop().flatten() {
            Some(root) => {
                self.heap.load(register, &root)?;
                self.heap.unpin(root)
            }
            None => self.heap.empty(register),
        }
    }

    fn push_nil(&mut self) -> Result<()> {
        self.heap.empty(LEFT)?;
        self.push(LEFT)
    }

    fn push_number(&mut self, worth: i64) -> Result<()> {
        let name = self.make(self.lists, 0)?;
        self.worth.insert(name, worth);
        self.push(CELL)
    }

    /// The top of the stack is the tail of a pair, and what lies below is its head.
    fn cons(&mut self) -> Result<()> {
        self.pop(RIGHT)?;
        self.pop(LEFT)?;
        self.pair(LEFT, RIGHT)?;
        self.heap.empty(LEFT)?;
        self.heap.empty(RIGHT)?;
        self.push(CELL)
    }

    /// Adds up the list on the stack, and pops it.
    fn sum(&mut self) -> Result<i64> {
        let mut total = 0;
        self.pop(LEFT)?;
        loop {
            match self.heap.get(RIGHT, LEFT, 0) {
                Err(Error::Empty) => break,
                head => total += head?.and_then(|head| self.worth.get(head)).unwrap_or(&0),
            }
            self.heap.get(LEFT, LEFT, 1)?;
        }
        self.heap.empty(RIGHT)?;
        Ok(total)
    }

    /// Makes a closure of the list on the stack, and pops it. The closure of that slot before is let go.
    fn capture(&mut self, slot: Slot) -> Result<()> {
        self.pop(LEFT)?;
        self.heap.wrap(RIGHT, LEFT, self.code)?;
        self.make(self.code, 1)?;
        self.set(CELL, 0, RIGHT)?;
        self.heap.hold(slot, CELL)?;
        self.heap.empty(LEFT)?;
        self.heap.empty(RIGHT)?;
        self.heap.empty(CELL)
    }

    /// Pushes the list that a closure captured.
    fn enter(&mut self, slot: Slot) -> Result<()> {
        self.heap.expose(CELL, slot)?;
        self.heap.get(RIGHT, CELL, 0)?;
        self.heap.unwrap(LEFT, RIGHT)?;
        self.heap.empty(RIGHT)?;
        self.heap.empty(CELL)?;
        self.push(LEFT)
    }

    fn push_list(&mut self, first: i64) -> Result<()> {
        for worth in first..first + LENGTH {
            self.push_number(worth)?;
        }
        self.push_nil()?;
        for _ in 0..LENGTH {
            self.cons()?;
        }
        Ok(())
    }

    fn evaluate(&mut self) -> Result<i64> {
        let mut total = 0;
        for round in 0..ROUNDS {
            self.push_list(round as i64)?;
            self.capture(SLOTS[round % CLOSURES])?;
            self.push_list(-(round as i64))?;
            total += self.sum()?;
            self.enter(SLOTS[round / 2 % CLOSURES])?;
            total += self.sum()?;
        }
        Ok(total)
    }

    fn collect(&mut self) -> Result<()> {
        while self.step(u64::MAX)? {}
        self.begin()?;
        while self.step(u64::MAX)? {}
        Ok(())
    }

    fn print(&self, when: &str) {
        let (numbers, let_go, collections) = (self.worth.len(), self.let_go, self.collections);
        println!("{when}: {numbers} numbers, {let_go} let go by {collections} collections");
    }
}

fn main() -> Result<()> {
    let mut machine = Machine::new()?;
    println!("total {}", machine.evaluate()?);
    machine.print("evaluated");
    machine.collect()?;
    machine.print("with closures");
    for slot in &SLOTS[..CLOSURES] {
        machine.heap.release(*slot)?;
    }
    machine.collect()?;
    machine.print("without");
    Ok(())
}
