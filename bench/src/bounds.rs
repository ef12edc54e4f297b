//! The bounds h^1 and h^2, directly on the task.
//!
//! Both run forward in time: at each time, the entries of the table that have this cost are settled, all of them at
//! once, and the actions that read a newly settled entry are looked at again. The first time at which an entry is
//! settled is its cost, so no entry is ever lowered, and the run ends when the whole goal is settled.

use crate::task::{all_below, Action, Members, Set, Task, MAX_ACTIONS, MAX_ATOMS};
use crate::wheel::Wheel;
use crate::{Order, NONE};

const ACTION_WORDS: usize = MAX_ACTIONS / 64;

/// A set of actions.
#[derive(Clone, Copy, Default)]
struct ActionSet([u64; ACTION_WORDS]);

impl ActionSet {
    #[inline]
    fn insert(&mut self, action: usize) {
        self.0[action / 64] |= 1 << (action % 64);
    }

    #[inline]
    fn insert_all(&mut self, other: &ActionSet) {
        for (word, more) in self.0.iter_mut().zip(&other.0) {
            *word |= more;
        }
    }
}

/// What both bounds want to know of a task before the first question.
struct Readers {
    actions: Vec<Action>,
    /// For each atom the actions that need it.
    of_atom: [ActionSet; MAX_ATOMS],
    /// The actions that need nothing.
    of_nothing: ActionSet,
    /// All actions that add something; no other is ever looked at.
    all: ActionSet,
    goal: Set,
}

impl Readers {
    fn new(task: &Task) -> Readers {
        let mut readers = Readers {
            actions: task.actions.clone(),
            of_atom: [ActionSet::default(); MAX_ATOMS],
            of_nothing: ActionSet::default(),
            all: ActionSet::default(),
            goal: task.goal,
        };
        for (number, action) in task.actions.iter().enumerate() {
            if action.adds == 0 {
                continue;
            }
            readers.all.insert(number);
            if action.needs == 0 {
                readers.of_nothing.insert(number);
            }
            for atom in Members(action.needs) {
                readers.of_atom[atom].insert(number);
            }
        }
        readers
    }

    /// The actions that need some atom of a set.
    #[inline]
    fn of(&self, atoms: Set) -> ActionSet {
        let mut all = ActionSet::default();
        for atom in Members(atoms) {
            all.insert_all(&self.of_atom[atom]);
        }
        all
    }
}

/// h^1 of one task, from any start.
pub struct First {
    readers: Readers,
}

impl First {
    pub fn new(task: &Task) -> First {
        First { readers: Readers::new(task) }
    }

    /// The bound from a start, or `NONE`.
    pub fn bound(&self, start: Set) -> u32 {
        let readers = &self.readers;
        let mut costs = [NONE; MAX_ATOMS];
        let mut settled = start;
        let mut waiting: Set = 0;
        let mut now = 0;
        let mut look_at = readers.of(start);
        look_at.insert_all(&readers.of_nothing);
        while readers.goal & !settled != 0 {
            for (word, &bits) in look_at.0.iter().enumerate() {
                for bit in Members(bits) {
                    let action = &readers.actions[word * 64 + bit];
                    let fresh = action.adds & !settled;
                    if fresh == 0 || !action.applies_in(settled) {
                        continue;
                    }
                    let cost = now + u32::from(action.cost);
                    for atom in Members(fresh) {
                        costs[atom] = costs[atom].min(cost);
                    }
                    waiting |= fresh;
                }
            }
            // Settle all atoms that wait with the least cost.
            let mut least = NONE;
            let mut cheapest: Set = 0;
            for atom in Members(waiting) {
                if costs[atom] < least {
                    least = costs[atom];
                    cheapest = 0;
                }
                cheapest |= Set::from(costs[atom] == least) << atom;
            }
            if cheapest == 0 {
                return NONE;
            }
            now = least;
            settled |= cheapest;
            waiting &= !cheapest;
            look_at = readers.of(cheapest);
        }
        now
    }
}

/// An action that was found to apply: at its time, each atom that it adds holds together with each of `beside`.
#[derive(Clone, Copy)]
struct Arrival {
    action: u16,
    beside: Set,
}

/// The table of settled pairs: row p has q where {p, q} is settled, and p itself where {p} is.
struct Pairs {
    rows: [Set; MAX_ATOMS],
    /// The atoms that are settled on their own.
    single: Set,
}

impl Pairs {
    fn inside(start: Set) -> Pairs {
        let mut rows = [0; MAX_ATOMS];
        for atom in Members(start) {
            rows[atom] = start;
        }
        Pairs { rows, single: start }
    }

    /// The atoms that are settled together with every one of `atoms`; `atoms` themselves are among them exactly where
    /// all their pairs are settled.
    #[inline]
    fn beside(&self, atoms: Set) -> Set {
        Members(atoms).fold(self.single, |beside, atom| beside & self.rows[atom])
    }

    #[inline]
    fn have_all_of(&self, atoms: Set) -> bool {
        atoms & !self.beside(atoms) == 0
    }

    /// Settles the pairs of each of `added` with each of `beside`, and tells the atoms whose rows have changed.
    #[inline]
    fn settle(&mut self, added: Set, beside: Set) -> Set {
        let mut changed = 0;
        for p in Members(added) {
            let fresh = beside & !self.rows[p];
            if fresh == 0 {
                continue;
            }
            changed |= fresh | 1 << p;
            self.rows[p] |= fresh;
            for q in Members(fresh) {
                self.rows[q] |= 1 << p;
            }
        }
        self.single |= changed & added;
        changed
    }
}

/// h^2 of one task, from any start.
pub struct Second {
    readers: Readers,
    /// The atoms that can be carried past each action.
    carried: Vec<Set>,
    wheel: Wheel,
    arrivals: Vec<Arrival>,
    /// For each action the atoms beside it that an arrival was already made for.
    told: [Set; MAX_ACTIONS],
}

impl Second {
    pub fn new(task: &Task) -> Second {
        let dearest = task.actions.iter().map(|action| action.cost).max().unwrap_or(0);
        let all = all_below(task.atoms);
        // Each arrival of an action has an atom beside it that no earlier one had.
        let most_arrivals = task.actions.len() * (task.atoms + 1);
        Second {
            readers: Readers::new(task),
            carried: task.actions.iter().map(|action| all & !action.removes & !action.adds).collect(),
            wheel: Wheel::new(dearest, most_arrivals),
            arrivals: Vec::with_capacity(most_arrivals),
            told: [0; MAX_ACTIONS],
        }
    }

    /// The bound from a start, or `NONE`.
    pub fn bound(&mut self, start: Set) -> u32 {
        let goal = self.readers.goal;
        if goal & !start == 0 {
            return 0;
        }
        self.wheel.clear();
        self.arrivals.clear();
        self.told = [0; MAX_ACTIONS];
        let mut pairs = Pairs::inside(start);
        let mut now = 0;
        let mut look_at = self.readers.of(start);
        look_at.insert_all(&self.readers.of_nothing);
        loop {
            self.find_arrivals(&look_at, &pairs, now);
            let Some((time, mut chain)) = self.wheel.take_earliest(now) else {
                return NONE;
            };
            now = time;
            let single = pairs.single;
            let mut changed = 0;
            while let Some(arrival) = self.wheel.step(&mut chain) {
                let Arrival { action, beside } = self.arrivals[arrival];
                changed |= pairs.settle(self.readers.actions[usize::from(action)].adds, beside);
            }
            if changed & goal != 0 && pairs.have_all_of(goal) {
                return now;
            }
            look_at = self.readers.of(changed);
            if pairs.single != single {
                look_at.insert_all(&self.readers.of_nothing);
            }
        }
    }

    /// Looks at actions, and puts an arrival on the wheel for each that applies beside atoms that it was not told for.
    #[inline]
    fn find_arrivals(&mut self, look_at: &ActionSet, pairs: &Pairs, now: u32) {
        for (word, &bits) in look_at.0.iter().enumerate() {
            for bit in Members(bits) {
                let number = word * 64 + bit;
                let action = &self.readers.actions[number];
                let settled = pairs.beside(action.needs);
                if action.needs & !settled != 0 {
                    continue;
                }
                let beside = (settled & self.carried[number] | action.adds) & !self.told[number];
                if beside == 0 {
                    continue;
                }
                self.told[number] |= beside;
                let missing = Members(action.adds).fold(0, |missing, atom| missing | !pairs.rows[atom]);
                let beside = beside & missing;
                if beside == 0 {
                    continue;
                }
                let arrival = self.arrivals.len() as u16;
                self.arrivals.push(Arrival { action: number as u16, beside });
                self.wheel.put(now + u32::from(action.cost), arrival);
            }
        }
    }
}

/// h^m of one task, from any start.
pub enum Direct {
    First(Box<First>),
    Second(Box<Second>),
}

impl Direct {
    pub fn new(task: &Task, order: Order) -> Direct {
        match order {
            Order::One => Direct::First(Box::new(First::new(task))),
            Order::Two => Direct::Second(Box::new(Second::new(task))),
        }
    }

    /// The bound from a start, or `NONE`.
    pub fn bound(&mut self, start: Set) -> u32 {
        match self {
            Direct::First(first) => first.bound(start),
            Direct::Second(second) => second.bound(start),
        }
    }
}

/// The bound h^m of a task from its own start, or `NONE`.
pub fn direct(task: &Task, order: Order) -> u32 {
    Direct::new(task, order).bound(task.start)
}
