//! The commands on the graph, each with its barriers.

use crate::collector::Collector;
use crate::heap::{COMPS, MAP, NONE, OBJECT_LIMIT, Place, WRAPPER, ZONES};
use crate::lines::Command;
use crate::output::Output;

/// The text of a refusal.
type Refusal = &'static str;

impl Collector {
    /// Does a command and writes its reports and its reply.
    #[inline(always)]
    pub fn answer(&mut self, command: &Command, output: &mut Output) {
        let refused = match *command {
            Command::Zone => self.zone(output),
            Command::Comp { zone } => self.comp(zone, output),
            Command::New { to, comp, fields } => self.make(to, comp, fields, output),
            Command::Map { to, comp } => self.make(to, comp, MAP, output),
            Command::Get { to, from, field } => self.get(to, from, field, output),
            Command::Set { of, field, value } => self.set(of, field, value, output),
            Command::Wrap { to, from, comp } => self.wrap(to, from, comp, output),
            Command::Unwrap { to, from } => self.unwrap(to, from, output),
            Command::Copy { to, from } => {
                self.heap.registers[usize::from(to)] = self.register(from);
                accept(output)
            }
            Command::Drop { register } => {
                self.heap.registers[usize::from(register)] = NONE;
                accept(output)
            }
            Command::Hold { slot, register } => {
                self.heap.slots[usize::from(slot)] = self.register(register);
                accept(output)
            }
            Command::Release { slot } => {
                self.heap.slots[usize::from(slot)] = NONE;
                accept(output)
            }
            Command::Expose { to, slot } => self.hand_out(to, self.heap.slots[usize::from(slot)], output),
            Command::Put { map, key, value } => self.put(map, key, value, output),
            Command::Del { map, key } => self.del(map, key, output),
            Command::Find { to, map, key } => self.find(to, map, key, output),
            Command::Gc { zones } => self.gc(zones, output),
            Command::Slice { units } => self.slice(u64::from(units), output),
            Command::Finish => self.slice(u64::MAX, output),
            Command::Collect { zones } => self.collect(zones, output),
            Command::Colours => self.colours(output),
        };
        if let Err(refusal) = refused {
            output.line(refusal);
        }
    }

    #[inline(always)]
    fn register(&self, register: u8) -> Place {
        self.heap.registers[usize::from(register)]
    }

    /// What a register holds, which must be something.
    #[inline(always)]
    fn held(&self, register: u8) -> Result<Place, Refusal> {
        match self.register(register) {
            NONE => Err("empty"),
            place => Ok(place),
        }
    }

    /// Hands a cell to a register, which makes it black, and replies with its name.
    #[inline(always)]
    fn hand_out(&mut self, to: u8, place: Place, output: &mut Output) -> Result<(), Refusal> {
        self.heap.registers[usize::from(to)] = place;
        if place == NONE {
            output.line("null");
            return Ok(());
        }
        self.expose(place);
        let cell = self.heap.cell(place);
        if cell.kind == WRAPPER {
            output.wrapper(cell.comp, cell.number);
        } else {
            output.number(u64::from(cell.number));
        }
        output.end_line();
        Ok(())
    }

    fn zone(&mut self, output: &mut Output) -> Result<(), Refusal> {
        let number = self.heap.zones.len();
        if number == ZONES {
            return Err("full");
        }
        self.heap.add_zone();
        output.numbered_line("zone ", number as u64);
        Ok(())
    }

    fn comp(&mut self, zone: u8, output: &mut Output) -> Result<(), Refusal> {
        let number = self.heap.comps.len();
        if usize::from(zone) >= self.heap.zones.len() {
            return Err("no-zone");
        }
        if number == COMPS {
            return Err("full");
        }
        self.heap.comps.push(zone);
        output.numbered_line("comp ", number as u64);
        Ok(())
    }

    #[inline(always)]
    fn make(&mut self, to: u8, comp: u8, kind: u8, output: &mut Output) -> Result<(), Refusal> {
        if usize::from(comp) >= self.heap.comps.len() {
            return Err("no-comp");
        }
        let number = self.heap.made;
        self.heap.made += 1;
        self.heap.registers[usize::from(to)] = self.heap.add_cell(comp, kind, number);
        output.numbered_line("cell ", u64::from(number));
        Ok(())
    }

    /// Checks that a cell is an object with this field.
    #[inline(always)]
    fn has_field(&self, object: Place, field: u8) -> Result<(), Refusal> {
        match self.heap.cell(object).kind {
            kind if kind > OBJECT_LIMIT => Err("kind"),
            count if field >= count => Err("no-field"),
            _ => Ok(()),
        }
    }

    #[inline(always)]
    fn get(&mut self, to: u8, from: u8, field: u8, output: &mut Output) -> Result<(), Refusal> {
        let object = self.held(from)?;
        self.has_field(object, field)?;
        let value = self.heap.cell(object).fields[usize::from(field)];
        self.hand_out(to, value, output)
    }

    #[inline(always)]
    fn set(&mut self, of: u8, field: u8, value: Option<u8>, output: &mut Output) -> Result<(), Refusal> {
        let object = self.held(of)?;
        let value = match value {
            Some(register) => self.held(register)?,
            None => NONE,
        };
        self.has_field(object, field)?;
        if value != NONE && self.heap.cell(value).comp != self.heap.cell(object).comp {
            return Err("cross");
        }
        let old = self.heap.cell(object).fields[usize::from(field)];
        if old != NONE {
            self.expose(old);
        }
        self.heap.cells[object as usize].fields[usize::from(field)] = value;
        accept(output)
    }

    fn wrap(&mut self, to: u8, from: u8, comp: u8, output: &mut Output) -> Result<(), Refusal> {
        let place = self.held(from)?;
        if usize::from(comp) >= self.heap.comps.len() {
            return Err("no-comp");
        }
        let cell = self.heap.cell(place);
        let target = if cell.kind == WRAPPER { cell.fields[0] } else { place };
        let cell = self.heap.cell(target);
        if cell.comp == comp {
            return self.hand_out(to, target, output);
        }
        self.expose(target);
        let number = self.heap.cell(target).number;
        let wrapper = match self.heap.wrapper_of(comp, number) {
            Some(wrapper) => wrapper,
            None => self.heap.add_wrapper(comp, target),
        };
        self.hand_out(to, wrapper, output)
    }

    fn unwrap(&mut self, to: u8, from: u8, output: &mut Output) -> Result<(), Refusal> {
        let cell = self.heap.cell(self.held(from)?);
        if cell.kind != WRAPPER {
            return Err("kind");
        }
        self.hand_out(to, cell.fields[0], output)
    }

    /// Checks what `put`, `del` and `find` ask of a map, a key and a value.
    fn check_weak(&self, map: Place, key: Place, value: Place) -> Result<(), Refusal> {
        let (map, key, value) = (self.heap.cell(map), self.heap.cell(key), self.heap.cell(value));
        if map.kind != MAP {
            return Err("kind");
        }
        if key.comp == map.comp && value.comp == map.comp { Ok(()) } else { Err("cross") }
    }

    fn put(&mut self, map: u8, key: u8, value: u8, output: &mut Output) -> Result<(), Refusal> {
        let (map, key, value) = (self.held(map)?, self.held(key)?, self.held(value)?);
        self.check_weak(map, key, value)?;
        match self.heap.entry(map, key) {
            Some(entry) => {
                self.expose(self.heap.entries[entry as usize].value);
                self.heap.entries[entry as usize].value = value;
            }
            None => self.heap.add_entry(map, key, value),
        }
        accept(output)
    }

    fn del(&mut self, map: u8, key: u8, output: &mut Output) -> Result<(), Refusal> {
        let (map, key) = (self.held(map)?, self.held(key)?);
        self.check_weak(map, key, key)?;
        let Some(entry) = self.heap.entry(map, key) else {
            output.line("absent");
            return Ok(());
        };
        self.expose(self.heap.entries[entry as usize].value);
        self.heap.remove_entry(entry);
        if !self.is_walking() {
            self.heap.unlink_removed();
        }
        accept(output)
    }

    fn find(&mut self, to: u8, map: u8, key: u8, output: &mut Output) -> Result<(), Refusal> {
        let (map, key) = (self.held(map)?, self.held(key)?);
        self.check_weak(map, key, key)?;
        let value = match self.heap.entry(map, key) {
            Some(entry) => self.heap.entries[entry as usize].value,
            None => NONE,
        };
        self.hand_out(to, value, output)
    }

    fn check_begin(&self, zones: u64) -> Result<(), Refusal> {
        let highest = (u64::BITS - 1 - zones.leading_zeros()) as usize;
        if self.is_running() {
            Err("running")
        } else if highest >= self.heap.zones.len() {
            Err("no-zone")
        } else {
            Ok(())
        }
    }

    fn gc(&mut self, zones: u64, output: &mut Output) -> Result<(), Refusal> {
        self.check_begin(zones)?;
        self.begin(zones);
        output.line("gc ok");
        Ok(())
    }

    fn slice(&mut self, units: u64, output: &mut Output) -> Result<(), Refusal> {
        if !self.is_running() {
            return Err("idle");
        }
        let done = self.work(units, output);
        output.numbered_line("slice ", done);
        Ok(())
    }

    fn collect(&mut self, zones: u64, output: &mut Output) -> Result<(), Refusal> {
        self.check_begin(zones)?;
        self.begin(zones);
        self.work(u64::MAX, output);
        output.line("collected");
        Ok(())
    }

    fn colours(&mut self, output: &mut Output) -> Result<(), Refusal> {
        if !self.is_settled() {
            return Err("marking");
        }
        self.write_colours(output);
        Ok(())
    }
}

#[inline(always)]
fn accept(output: &mut Output) -> Result<(), Refusal> {
    output.line("ok");
    Ok(())
}
