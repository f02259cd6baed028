//! What the package adds to the library: errors in words, events, a heap that moves to another thread, and dropping.

use gczone::{Error, Event, Heap, Line, Name, Payloads, Root, Zone, REGISTERS, SLOTS, WEAK_SLOTS};

/// Two zones, an object in each, which lead to each other by wrappers; a gray slot holds the first.
fn ring() -> Result<(Heap, [Zone; 2]), Error> {
    let [a, b, wrapper, ..] = REGISTERS;
    let mut heap = Heap::new()?;
    let zones = [heap.zone()?, heap.zone()?];
    let (left, right) = (heap.compartment(zones[0])?, heap.compartment(zones[1])?);
    heap.object(a, left, 1)?;
    heap.object(b, right, 1)?;
    heap.wrap(wrapper, b, left)?;
    heap.set(a, 0, Some(wrapper))?;
    heap.wrap(wrapper, a, right)?;
    heap.set(b, 0, Some(wrapper))?;
    heap.hold(SLOTS[0], a)?;
    for register in [a, b, wrapper] {
        heap.empty(register)?;
    }
    Ok((heap, zones))
}

fn collect(heap: &mut Heap, zones: &[Zone], limit: u64) -> Result<Vec<Event>, Error> {
    heap.begin(zones)?;
    heap.events(limit).collect()
}

fn freed(events: &[Event]) -> usize {
    events.iter().map(|event| if let Event::Swept { freed, .. } = event { freed.len() } else { 0 }).sum()
}

#[test]
fn ring_is_gray_and_then_freed() -> Result<(), Error> {
    let (mut heap, zones) = ring()?;
    let events = collect(&mut heap, &zones, 1)?;
    assert_eq!(events[..2], [Event::Started, Event::Groups(vec![zones.to_vec()])]);
    let grays = heap.grays()?;
    assert_eq!(events[2], Event::Ended { zones: zones.to_vec(), grays: grays.clone(), lost: vec![] });
    assert_eq!(grays.first().copied(), heap.next_gray(None)?);
    for (index, name) in grays.iter().enumerate() {
        assert_eq!(grays.get(index + 1).copied(), heap.next_gray(Some(*name))?);
    }
    assert_eq!((grays.len(), freed(&events)), (4, 0));
    let lines = heap.dump()?;
    assert_eq!(lines.iter().filter(|line| matches!(line, Line::Cell { black: false, .. })).count(), 4);
    assert_eq!(lines.iter().filter(|line| matches!(line, Line::Edge { .. })).count(), 2);
    heap.release(SLOTS[0])?;
    assert_eq!(heap.counts()?.cells, 4);
    assert_eq!(freed(&collect(&mut heap, &zones, 1000)?), 4);
    assert_eq!(heap.dump()?, []);
    let counts = heap.counts()?;
    assert_eq!((counts.cells, counts.objects, counts.entries), (0, 2, 0));
    assert_eq!((counts.bytes, counts.arenas), (2 * 2592, 2));
    Ok(())
}

#[test]
fn collection_is_given_up() -> Result<(), Error> {
    let (mut heap, zones) = ring()?;
    assert_eq!(heap.reset()?, []);
    heap.release(SLOTS[0])?;
    heap.begin(&zones[..1])?;
    assert_eq!(heap.reset()?, [Event::Stopped(vec![zones[0]])]);
    assert!(!heap.is_running());
    assert_eq!(heap.counts()?.cells, 4);
    assert_eq!(freed(&collect(&mut heap, &zones, 1000)?), 4);
    assert_eq!(heap.reset()?, []);
    Ok(())
}

#[test]
fn wrapper_is_a_key() -> Result<(), Error> {
    let [map, key, value, target, ..] = REGISTERS;
    let mut heap = Heap::new()?;
    let zones = [heap.zone()?, heap.zone()?];
    let (left, right) = (heap.compartment(zones[0])?, heap.compartment(zones[1])?);
    heap.map(map, left)?;
    heap.object(target, right, 0)?;
    let name = heap.wrap(key, target, left)?;
    heap.object(value, left, 0)?;
    heap.put(map, key, value)?;
    heap.empty(key)?;
    heap.empty(value)?;
    assert_eq!(freed(&collect(&mut heap, &zones, 1000)?), 0);
    assert_eq!(heap.wrap(key, target, left)?, name);
    assert_eq!(heap.find(value, map, key)?, Some(Name::Cell(2)));
    for register in [key, value, target] {
        heap.empty(register)?;
    }
    assert_eq!(freed(&collect(&mut heap, &zones, 1000)?), 3);
    assert_eq!(heap.counts()?.entries, 0);
    Ok(())
}

#[test]
fn watched_cell_is_lost_with_its_group() -> Result<(), Error> {
    let [kept, dead, ..] = REGISTERS;
    let mut heap = Heap::new()?;
    let zone = heap.zone()?;
    let compartment = heap.compartment(zone)?;
    let names = [heap.object(kept, compartment, 0)?, heap.object(dead, compartment, 0)?];
    for (register, slot) in [kept, dead].into_iter().zip(WEAK_SLOTS) {
        heap.watch(register)?;
        heap.weaken(slot, register)?;
    }
    heap.empty(dead)?;
    heap.begin(&[zone])?;
    let mut told = Vec::new();
    for event in heap.events(1) {
        if let Event::Ended { lost, .. } = event? {
            told.extend(lost);
        }
    }
    assert_eq!(told, names[1..]);
    assert_eq!(heap.deref(dead, WEAK_SLOTS[0])?, Some(names[0]));
    assert_eq!(heap.deref(dead, WEAK_SLOTS[1])?, None);
    assert_eq!((heap.unwatch(kept)?, heap.unwatch(kept)?), (true, false));
    Ok(())
}

#[test]
fn pinned_cells_are_kept_where_they_go() -> Result<(), Error> {
    let [cell, held, ..] = REGISTERS;
    let mut heap = Heap::new()?;
    let zone = heap.zone()?;
    let compartment = heap.compartment(zone)?;
    assert_eq!(heap.pin(cell), Err(Error::Empty));
    let mut roots = Vec::new();
    for _ in 0..1000 {
        let name = heap.object(cell, compartment, 1)?;
        roots.push((name, heap.pin(cell)?));
    }
    heap.empty(cell)?;
    assert_eq!(freed(&collect(&mut heap, &[zone], 100)?), 0);
    let (kept, dead): (Vec<_>, Vec<_>) = roots.into_iter().partition(|(name, _)| *name < Name::Cell(100));
    for (_, root) in dead {
        heap.unpin(root)?;
    }
    for _ in 0..500 {
        heap.object(cell, compartment, 0)?;
    }
    for (name, root) in &kept {
        heap.load(cell, root)?;
        heap.set(cell, 0, Some(cell))?;
        assert_eq!(heap.get(held, cell, 0)?, Some(*name));
    }
    let again = heap.pin(cell)?;
    assert_eq!(freed(&collect(&mut heap, &[zone], 100)?), 1400);
    heap.compact(zone)?;
    for (name, root) in kept {
        heap.load(cell, &root)?;
        assert_eq!(heap.get(held, cell, 0)?, Some(name));
        heap.unpin(root)?;
    }
    heap.empty(cell)?;
    heap.empty(held)?;
    assert_eq!(freed(&collect(&mut heap, &[zone], 100)?), 99);
    heap.unpin(again)?;
    assert_eq!(freed(&collect(&mut heap, &[zone], 100)?), 1);
    Ok(())
}

#[test]
fn root_of_another_heap_is_not_pinned() -> Result<(), Error> {
    let (mut heap, _) = ring()?;
    let (mut other, _) = ring()?;
    heap.expose(REGISTERS[0], SLOTS[0])?;
    let root = heap.pin(REGISTERS[0])?;
    assert_eq!(other.load(REGISTERS[0], &root), Err(Error::NotPinned));
    assert_eq!(other.unpin(root), Err(Error::NotPinned));
    assert_eq!(Error::NotPinned.to_string(), "no cell is pinned under this number");
    Ok(())
}

#[test]
fn units_left_bound_the_units_that_come() -> Result<(), Error> {
    let (mut heap, zones) = ring()?;
    assert_eq!(heap.units_left(), Ok(0));
    heap.begin(&zones)?;
    let (mut units, mut most) = (0, u64::MAX);
    while heap.is_running() {
        let left = heap.units_left()?;
        assert!(left > 0);
        most = most.min(units + left);
        units += heap.advance(1)?.units;
    }
    assert!(units <= most);
    assert_eq!(heap.units_left(), Ok(0));
    Ok(())
}

/// Numbers that look random: a linear congruence.
struct Random(u64);

impl Random {
    fn below(&mut self, limit: u64) -> usize {
        self.0 = self.0.wrapping_mul(6_364_136_223_846_793_005).wrapping_add(1_442_695_040_888_963_407);
        ((self.0 >> 33) % limit) as usize
    }
}

/// Does commands in two zones, with collections in slices between them. Each object has its number as its data.
fn churn(random: &mut Random, steps: usize) -> Result<(Heap, Payloads<u64>), Error> {
    let mut heap = Heap::new()?;
    let mut numbers = Payloads::new();
    let zones = [heap.zone()?, heap.zone()?];
    let compartments = [heap.compartment(zones[0])?, heap.compartment(zones[1])?];
    let mut pinned: [Vec<Root>; 2] = [Vec::new(), Vec::new()];
    for _ in 0..steps {
        let side = random.below(2);
        let registers = &REGISTERS[8 * side..8 * side + 8];
        let (register, other) = (registers[random.below(8)], registers[random.below(8)]);
        match random.below(14) {
            0..=4 => {
                let name = heap.object(register, compartments[side], 2)?;
                let number = heap.counts()?.objects - 1;
                assert_eq!((name, numbers.insert(name, number)), (Name::Cell(number), None));
            }
            5..=6 => match heap.set(register, random.below(2) as u8, Some(other)) {
                Ok(()) | Err(Error::Empty) => {}
                Err(error) => return Err(error),
            },
            7 => heap.empty(register)?,
            8 => match heap.pin(register) {
                Ok(root) => pinned[side].push(root),
                Err(Error::Empty) => {}
                Err(error) => return Err(error),
            },
            9 if !pinned[side].is_empty() => {
                let root = random.below(pinned[side].len() as u64);
                let root = pinned[side].swap_remove(root);
                heap.load(register, &root)?;
                heap.unpin(root)?;
            }
            10 if !heap.is_running() => heap.begin(&zones[..=side])?,
            _ => {
                if let Some(event) = heap.advance(random.below(20) as u64)?.event {
                    for (name, number) in numbers.let_go(&event) {
                        assert_eq!(name, Name::Cell(number));
                    }
                }
            }
        }
    }
    for event in heap.events(u64::MAX) {
        numbers.let_go(&event?);
    }
    Ok((heap, numbers))
}

#[test]
fn data_is_that_of_the_cells_that_are_there() -> Result<(), Error> {
    for seed in 0..10 {
        let (mut heap, numbers) = churn(&mut Random(seed), 6000)?;
        let mut names = Vec::new();
        for line in heap.dump()? {
            if let Line::Cell { name, .. } = line {
                names.push(name);
            }
        }
        assert_eq!(numbers.len(), names.len());
        assert!(names.len() > 10 && heap.counts()?.objects > 2000);
        assert!(names.iter().all(|name| numbers.get(*name).map(|number| Name::Cell(*number)) == Some(*name)));
    }
    Ok(())
}

#[test]
fn errors_have_words() -> Result<(), Error> {
    let [a, b, ..] = REGISTERS;
    let mut heap = Heap::new()?;
    assert_eq!(heap.begin(&[]), Err(Error::NoZone));
    let zone = heap.zone()?;
    let compartment = heap.compartment(zone)?;
    assert_eq!(heap.object(a, compartment, 9), Err(Error::BadFieldCount));
    assert_eq!(heap.get(b, a, 0), Err(Error::Empty));
    assert_eq!(heap.object(a, compartment, 1)?, Name::Cell(0));
    assert_eq!(heap.get(b, a, 8), Err(Error::BadField));
    assert_eq!(heap.get(b, a, 1), Err(Error::NoField));
    assert_eq!(heap.get(b, a, 0), Ok(None));
    heap.begin(&[zone])?;
    assert_eq!(heap.begin(&[zone]), Err(Error::Running));
    assert_eq!(heap.grays(), Err(Error::Marking));
    assert_eq!(heap.next_gray(None), Err(Error::Marking));
    assert_eq!(Error::Empty.to_string(), "a register that is read is empty");
    assert_eq!(Error::NoMemory.to_string(), "out of memory");
    Ok(())
}

#[test]
fn heap_goes_to_another_thread_while_it_collects() -> Result<(), Error> {
    let (mut heap, zones) = ring()?;
    heap.release(SLOTS[0])?;
    heap.begin(&zones)?;
    heap.advance(2)?;
    let events = std::thread::spawn(move || heap.events(2).collect::<Result<Vec<_>, _>>()).join();
    assert_eq!(freed(&events.expect("the thread does not panic")?), 4);
    Ok(())
}

#[test]
fn events_dropped_early_leave_the_collection_running() -> Result<(), Error> {
    let (mut heap, zones) = ring()?;
    heap.begin(&zones)?;
    assert!(heap.events(1).next().is_some());
    assert!(heap.is_running());
    assert_eq!(heap.events(1).filter(Result::is_ok).count(), 4);
    assert!(!heap.is_running());
    Ok(())
}
