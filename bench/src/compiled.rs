//! The task P^m, written out in full, and h^max on it.

use crate::task::{all_below, Action, Members, Set, Task, MAX_ATOMS};
use crate::wheel::Wheel;
use crate::{Order, NONE};

/// How many meta-atoms and meta-actions P^m has.
#[derive(Clone, Copy, Debug, PartialEq, Eq)]
pub struct Size {
    pub atoms: usize,
    pub actions: usize,
}

/// The size of P^m of a task, without building it.
pub fn size(task: &Task, order: Order) -> Size {
    let (atoms, actions) = (task.atoms, task.actions.len());
    match order {
        Order::One => Size { atoms, actions },
        Order::Two => {
            let touched: usize = task.actions.iter().map(|a| (a.adds | a.removes).count_ones() as usize).sum();
            Size { atoms: atoms + atoms * atoms.saturating_sub(1) / 2, actions: actions * (1 + atoms) - touched }
        }
    }
}

/// The numbers of the meta-atoms: that of {i, j} at `[i][j]` and at `[j][i]`, and that of {i} at `[i][i]`.
struct Numbers([[u16; MAX_ATOMS]; MAX_ATOMS]);

impl Numbers {
    fn new(atoms: usize) -> Numbers {
        let mut numbers = [[0; MAX_ATOMS]; MAX_ATOMS];
        let mut enter = |i: usize, j: usize, number: u16| {
            numbers[i][j] = number;
            numbers[j][i] = number;
        };
        let mut next = atoms as u16;
        for j in 0..atoms {
            enter(j, j, j as u16);
            for i in 0..j {
                enter(i, j, next);
                next += 1;
            }
        }
        Numbers(numbers)
    }

    /// Calls `tell` with every meta-atom inside a set.
    #[inline(always)]
    fn inside(&self, set: Set, order: Order, mut tell: impl FnMut(u16)) {
        for j in Members(set) {
            tell(j as u16);
            if order == Order::Two {
                for i in Members(set & !(!0 << j)) {
                    tell(self.0[j][i]);
                }
            }
        }
    }

    /// Calls `tell` with every pair of `atom` and one of a set.
    #[inline(always)]
    fn pairs(&self, atom: usize, set: Set, mut tell: impl FnMut(u16)) {
        for other in Members(set) {
            tell(self.0[atom][other]);
        }
    }
}

/// Lists of numbers, one after the other in one piece of memory.
#[derive(Default)]
struct Lists {
    /// Where each list begins, and at the end where the last one ends.
    begins: Vec<u32>,
    items: Vec<u16>,
}

impl Lists {
    #[inline(always)]
    fn list(&self, number: usize) -> &[u16] {
        &self.items[self.begins[number] as usize..self.begins[number + 1] as usize]
    }
}

/// P^m of a task. Its start is left open: it comes with each question.
pub struct Compiled {
    order: Order,
    numbers: Box<Numbers>,
    costs: Vec<u16>,
    /// How many meta-atoms each meta-action needs.
    need_counts: Vec<u16>,
    /// The meta-actions that need nothing.
    needless: Vec<u16>,
    /// For each meta-atom the meta-actions that need it.
    needed_by: Lists,
    /// For each meta-action the meta-atoms that it adds.
    adds: Lists,
    /// Which meta-atoms are in the goal, and how many.
    in_goal: Vec<bool>,
    goal_count: usize,
    wheel: Wheel,
    missing: Vec<u16>,
}

/// The sets f that an action is combined with, besides the empty one.
fn companions(action: &Action, atoms: usize, order: Order) -> Set {
    match order {
        Order::One => 0,
        Order::Two => all_below(atoms) & !action.adds & !action.removes,
    }
}

/// How many meta-atoms all meta-actions add together.
fn count_adds(task: &Task, order: Order) -> usize {
    let count = |action: &Action| {
        let adds = action.adds.count_ones() as usize;
        let companions = companions(action, task.atoms, order).count_ones() as usize;
        let own = match order {
            Order::One => adds,
            Order::Two => adds * (adds + 1) / 2,
        };
        own + companions * (own + adds)
    };
    task.actions.iter().map(count).sum()
}

impl Compiled {
    /// Builds P^m.
    pub fn new(task: &Task, order: Order) -> Compiled {
        let size = size(task, order);
        let numbers = Box::new(Numbers::new(task.atoms));
        let mut costs = Vec::with_capacity(size.actions);
        let mut need_counts = Vec::with_capacity(size.actions);
        let mut needless = Vec::new();
        let mut adds =
            Lists { begins: Vec::with_capacity(size.actions + 1), items: Vec::with_capacity(count_adds(task, order)) };
        let mut readers = vec![0u32; size.atoms + 1];
        let mut own_adds = Vec::new();

        // First the meta-actions' adds and costs, and how many they need and are needed by.
        for action in &task.actions {
            let companions = companions(action, task.atoms, order);
            let mut own_needs = 0;
            let versions = 1 + companions.count_ones();
            numbers.inside(action.needs, order, |atom| {
                own_needs += 1;
                readers[usize::from(atom)] += versions;
            });
            own_adds.clear();
            numbers.inside(action.adds, order, |atom| own_adds.push(atom));
            if own_needs == 0 {
                needless.push(costs.len() as u16);
            }
            costs.resize(costs.len() + versions as usize, action.cost);
            adds.begins.push(adds.items.len() as u32);
            adds.items.extend_from_slice(&own_adds);
            need_counts.push(own_needs);
            let need_count_with_companion = own_needs + 1 + action.needs.count_ones() as u16;
            for companion in Members(companions) {
                adds.begins.push(adds.items.len() as u32);
                adds.items.extend_from_slice(&own_adds);
                numbers.pairs(companion, action.adds, |pair| adds.items.push(pair));
                if action.needs >> companion & 1 != 0 {
                    need_counts.push(own_needs);
                } else {
                    need_counts.push(need_count_with_companion);
                    readers[companion] += 1;
                    numbers.pairs(companion, action.needs, |pair| readers[usize::from(pair)] += 1);
                }
            }
        }
        adds.begins.push(adds.items.len() as u32);

        let needed_by = index_needs(task, order, &numbers, readers);
        let mut in_goal = vec![false; size.atoms];
        let mut goal_count = 0;
        numbers.inside(task.goal, order, |atom| {
            in_goal[usize::from(atom)] = true;
            goal_count += 1;
        });
        let dearest = task.actions.iter().map(|action| action.cost).max().unwrap_or(0);
        Compiled {
            order,
            numbers,
            missing: vec![0; costs.len()],
            wheel: Wheel::new(dearest, costs.len()),
            costs,
            need_counts,
            needless,
            needed_by,
            adds,
            in_goal,
            goal_count,
        }
    }

    pub fn size(&self) -> Size {
        Size { atoms: self.in_goal.len(), actions: self.costs.len() }
    }

    /// The needs, the adds and the cost of a meta-action, the sets rising.
    pub fn meta_action(&self, action: usize) -> (Vec<u16>, Vec<u16>, u16) {
        let needs = (0..self.in_goal.len())
            .filter(|&atom| self.needed_by.list(atom).contains(&(action as u16)))
            .map(|atom| atom as u16)
            .collect();
        let mut adds = self.adds.list(action).to_vec();
        adds.sort_unstable();
        (needs, adds, self.costs[action])
    }

    /// h^max from the meta-atoms inside a start, or `NONE`.
    ///
    /// It runs forward in time. A meta-action sets off when its last need is reached, and arrives by its cost later;
    /// the meta-atoms that it adds are reached then, unless they were before.
    pub fn bound(&mut self, start: Set) -> u32 {
        let Compiled { costs, needed_by, adds, in_goal, wheel, missing, .. } = self;
        let mut goal_left = self.goal_count;
        if goal_left == 0 {
            return 0;
        }
        wheel.clear();
        missing.copy_from_slice(&self.need_counts);
        let mut reached = vec![false; in_goal.len()];
        let mut fresh = Vec::with_capacity(in_goal.len());
        self.numbers.inside(start, self.order, |atom| {
            reached[usize::from(atom)] = true;
            fresh.push(atom);
        });
        for &action in &self.needless {
            wheel.put(u32::from(costs[usize::from(action)]), action);
        }
        let mut now = 0;
        loop {
            for atom in fresh.drain(..) {
                let atom = usize::from(atom);
                goal_left -= usize::from(in_goal[atom]);
                for &action in needed_by.list(atom) {
                    let left = &mut missing[usize::from(action)];
                    *left -= 1;
                    if *left == 0 {
                        wheel.put(now + u32::from(costs[usize::from(action)]), action);
                    }
                }
            }
            if goal_left == 0 {
                return now;
            }
            let Some((time, mut chain)) = wheel.take_earliest(now) else {
                return NONE;
            };
            now = time;
            while let Some(action) = wheel.step(&mut chain) {
                for &atom in adds.list(action) {
                    let seen = &mut reached[usize::from(atom)];
                    if !*seen {
                        *seen = true;
                        fresh.push(atom);
                    }
                }
            }
        }
    }
}

/// The meta-actions that need each meta-atom. `counts` has how many there are of each, and a last entry to spare.
fn index_needs(task: &Task, order: Order, numbers: &Numbers, counts: Vec<u32>) -> Lists {
    // Every list is filled from its end: `begins` has the ends at first and the beginnings at last.
    let mut begins = counts;
    let mut sum = 0;
    for begin in &mut begins {
        sum += *begin;
        *begin = sum;
    }
    let mut items = vec![0u16; sum as usize];
    let mut first = 0u16;
    let mut enter = |atom: u16, action: u16| {
        let begin = &mut begins[usize::from(atom)];
        *begin -= 1;
        items[*begin as usize] = action;
    };
    for action in &task.actions {
        let companions = companions(action, task.atoms, order);
        let versions = 1 + companions.count_ones() as u16;
        numbers.inside(action.needs, order, |atom| {
            for version in 0..versions {
                enter(atom, first + version);
            }
        });
        for (version, companion) in Members(companions).enumerate() {
            if action.needs >> companion & 1 == 0 {
                let number = first + 1 + version as u16;
                enter(companion as u16, number);
                numbers.pairs(companion, action.needs, |pair| enter(pair, number));
            }
        }
        first += versions;
    }
    Lists { begins, items }
}

/// h^max of P^m from the task's own start, or `NONE`.
pub fn compiled(task: &Task, order: Order) -> u32 {
    Compiled::new(task, order).bound(task.start)
}
