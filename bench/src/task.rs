//! Tasks, and their form as files.

use std::fmt;

/// The most atoms that a task has.
pub const MAX_ATOMS: usize = 64;
/// The most actions that a task has.
pub const MAX_ACTIONS: usize = 256;

const VERSION: u8 = 1;
const HEADER_MAP_BITS: u8 = 0b11;
const RECORD_MAP_BITS: u8 = 0b1111;
const ABSENT_COST: u16 = 1;

/// A set of atoms: bit i stands for atom i.
pub type Set = u64;

/// The set of all atoms below `atoms`.
pub fn all_below(atoms: usize) -> Set {
    if atoms >= 64 {
        !0
    } else {
        (1 << atoms) - 1
    }
}

/// The members of a set, rising.
#[derive(Clone, Copy)]
pub struct Members(pub Set);

impl Iterator for Members {
    type Item = usize;

    #[inline(always)]
    fn next(&mut self) -> Option<usize> {
        if self.0 == 0 {
            return None;
        }
        let first = self.0.trailing_zeros() as usize;
        self.0 &= self.0 - 1;
        Some(first)
    }
}

#[derive(Clone, Copy, Debug, PartialEq, Eq)]
pub struct Action {
    pub needs: Set,
    pub adds: Set,
    pub removes: Set,
    pub cost: u16,
}

impl Action {
    #[inline]
    pub fn applies_in(&self, state: Set) -> bool {
        self.needs & !state == 0
    }

    #[inline]
    pub fn successor(&self, state: Set) -> Set {
        state & !self.removes | self.adds
    }
}

#[derive(Clone, Debug, PartialEq, Eq)]
pub struct Task {
    pub atoms: usize,
    pub actions: Vec<Action>,
    pub start: Set,
    pub goal: Set,
}

impl Task {
    /// Closes an action: it stays in its place, but adds and removes nothing.
    pub fn close(&mut self, action: usize) {
        self.actions[action].adds = 0;
        self.actions[action].removes = 0;
    }
}

/// The one fault of a file that is refused.
#[derive(Clone, Copy, Debug, PartialEq, Eq)]
pub struct Fault {
    pub number: u32,
    pub place: usize,
    pub action: Option<usize>,
}

impl fmt::Display for Fault {
    fn fmt(&self, f: &mut fmt::Formatter<'_>) -> fmt::Result {
        write!(f, "{} at {}", self.number, self.place)?;
        match self.action {
            Some(action) => write!(f, ", action {action}"),
            None => write!(f, ", no action"),
        }
    }
}

/// Walks over the bytes of a file, field by field.
struct Reader<'b> {
    bytes: &'b [u8],
    place: usize,
    atoms_allowed: Set,
    action: Option<usize>,
}

impl Reader<'_> {
    #[cold]
    fn fault(&self, number: u32, place: usize) -> Fault {
        Fault { number, place, action: self.action }
    }

    /// The next `N` bytes as a field.
    #[inline]
    fn field<const N: usize>(&mut self) -> Result<[u8; N], Fault> {
        match self.bytes.get(self.place..self.place + N) {
            Some(field) => {
                self.place += N;
                Ok(field.try_into().unwrap())
            }
            None => Err(self.fault(1, self.bytes.len())),
        }
    }

    #[inline]
    fn map(&mut self, meaningful: u8) -> Result<u8, Fault> {
        let [map] = self.field::<1>()?;
        if map & !meaningful != 0 {
            return Err(self.fault(4, self.place - 1));
        }
        Ok(map)
    }

    /// A set, which is empty where it is absent.
    #[inline]
    fn set(&mut self, present: bool) -> Result<Set, Fault> {
        if !present {
            return Ok(0);
        }
        let set = u64::from_be_bytes(self.field::<8>()?);
        if set & !self.atoms_allowed != 0 {
            return Err(self.fault(5, self.place - 8));
        }
        if set == 0 {
            return Err(self.fault(6, self.place - 8));
        }
        Ok(set)
    }

    /// A cost, which is 1 where it is absent.
    #[inline]
    fn cost(&mut self, present: bool) -> Result<u16, Fault> {
        if !present {
            return Ok(ABSENT_COST);
        }
        let cost = u16::from_be_bytes(self.field::<2>()?);
        if cost == ABSENT_COST {
            return Err(self.fault(6, self.place - 2));
        }
        Ok(cost)
    }

    #[inline]
    fn record(&mut self) -> Result<Action, Fault> {
        let first = self.place;
        let map = self.map(RECORD_MAP_BITS)?;
        let needs = self.set(map & 1 != 0)?;
        let adds = self.set(map & 2 != 0)?;
        let removes = self.set(map & 4 != 0)?;
        let cost = self.cost(map & 8 != 0)?;
        if adds & removes != 0 {
            return Err(self.fault(7, first));
        }
        Ok(Action { needs, adds, removes, cost })
    }
}

/// Reads a whole file: the task, or the file's fault.
pub fn read(bytes: &[u8]) -> Result<Task, Fault> {
    let mut reader = Reader { bytes, place: 0, atoms_allowed: 0, action: None };
    let [version] = reader.field::<1>()?;
    if version != VERSION {
        return Err(reader.fault(2, 0));
    }
    let [atoms] = reader.field::<1>()?;
    let atoms = usize::from(atoms);
    if atoms > MAX_ATOMS {
        return Err(reader.fault(3, 1));
    }
    let count = usize::from(u16::from_be_bytes(reader.field::<2>()?));
    if count > MAX_ACTIONS {
        return Err(reader.fault(3, 2));
    }
    reader.atoms_allowed = all_below(atoms);
    let map = reader.map(HEADER_MAP_BITS)?;
    let start = reader.set(map & 1 != 0)?;
    let goal = reader.set(map & 2 != 0)?;
    let mut actions = Vec::with_capacity(count);
    for number in 0..count {
        reader.action = Some(number);
        actions.push(reader.record()?);
    }
    reader.action = None;
    if reader.place < bytes.len() {
        return Err(reader.fault(8, reader.place));
    }
    Ok(Task { atoms, actions, start, goal })
}

fn write_set(bytes: &mut Vec<u8>, set: Set) {
    if set != 0 {
        bytes.extend_from_slice(&set.to_be_bytes());
    }
}

fn write_record(bytes: &mut Vec<u8>, action: &Action) {
    let has_cost = action.cost != ABSENT_COST;
    let map = u8::from(action.needs != 0)
        | u8::from(action.adds != 0) << 1
        | u8::from(action.removes != 0) << 2
        | u8::from(has_cost) << 3;
    bytes.push(map);
    write_set(bytes, action.needs);
    write_set(bytes, action.adds);
    write_set(bytes, action.removes);
    if has_cost {
        bytes.extend_from_slice(&action.cost.to_be_bytes());
    }
}

/// The one file of a task.
pub fn write(task: &Task) -> Vec<u8> {
    let mut bytes = vec![VERSION, task.atoms as u8];
    bytes.extend_from_slice(&(task.actions.len() as u16).to_be_bytes());
    bytes.push(u8::from(task.start != 0) | u8::from(task.goal != 0) << 1);
    write_set(&mut bytes, task.start);
    write_set(&mut bytes, task.goal);
    for action in &task.actions {
        write_record(&mut bytes, action);
    }
    bytes
}
