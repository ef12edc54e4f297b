//! h^2 by lowering a whole table of costs, as BOUNDS.md tells it: the entries begin at 0 or none and are lowered until
//! none falls any more.
//!
//! It is slower than `bounds`, which settles entries in the order of their costs and stops at the goal. It is kept as a
//! second measure for times, since it does the same work as any computation of the whole table, and as a check.

use crate::search::Estimator;
use crate::task::{all_below, Action, Members, Set, Task, MAX_ACTIONS, MAX_ATOMS};
use crate::NONE;

/// The table for m = 2: {p, q} at `[p][q]` and at `[q][p]`, {p} at `[p][p]`.
type Costs = [[u32; MAX_ATOMS]; MAX_ATOMS];

/// Which entries of each row are marked.
type Marks = [Set; MAX_ATOMS];

/// h^2 of one task, from any start.
pub struct Lowering {
    actions: Vec<Action>,
    carried: Vec<Set>,
    goal: Set,
    costs: Box<Costs>,
    /// The entries that are not none.
    reached: Marks,
    /// The entries that were lowered in the round before this one.
    lowered: Marks,
    /// The entries that have been lowered in this round.
    lowered_now: Marks,
    /// For each action the value of its needs.
    values: [u32; MAX_ACTIONS],
}

impl Lowering {
    pub fn new(task: &Task) -> Lowering {
        let all = all_below(task.atoms);
        Lowering {
            actions: task.actions.clone(),
            carried: task.actions.iter().map(|action| all & !action.adds & !action.removes).collect(),
            goal: task.goal,
            costs: Box::new([[NONE; MAX_ATOMS]; MAX_ATOMS]),
            reached: [0; MAX_ATOMS],
            lowered: [0; MAX_ATOMS],
            lowered_now: [0; MAX_ATOMS],
            values: [NONE; MAX_ACTIONS],
        }
    }

    /// The bound from a start, or `NONE`.
    pub fn bound(&mut self, start: Set) -> u32 {
        self.complete(start);
        self.value(self.goal)
    }

    /// The table's entry for {p, q}, after `bound`; for {p} where they are the same.
    pub fn entry(&self, p: usize, q: usize) -> u32 {
        self.costs[p][q]
    }

    fn complete(&mut self, start: Set) {
        *self.costs = [[NONE; MAX_ATOMS]; MAX_ATOMS];
        self.reached = [0; MAX_ATOMS];
        self.lowered_now = [0; MAX_ATOMS];
        self.values = [NONE; MAX_ACTIONS];
        for p in Members(start) {
            self.lower(p, start, |_| 0);
        }
        let mut first_round = true;
        while first_round || self.lowered_now.iter().any(|&row| row != 0) {
            self.lowered = std::mem::replace(&mut self.lowered_now, [0; MAX_ATOMS]);
            for action in 0..self.actions.len() {
                self.look_at(action, first_round);
            }
            first_round = false;
        }
    }

    /// The value of a set: its greatest entry.
    fn value(&self, set: Set) -> u32 {
        let mut value = 0;
        for p in Members(set) {
            if set & !self.reached[p] != 0 {
                return NONE;
            }
            for q in Members(set & (!0 << p)) {
                value = value.max(self.costs[p][q]);
            }
        }
        value
    }

    /// Lowers the entries of p with some others to the costs that are told, where those are lower.
    #[inline]
    fn lower(&mut self, p: usize, others: Set, cost: impl Fn(usize) -> u32) {
        let mut fallen = 0;
        for q in Members(others) {
            let cost = cost(q);
            if cost < self.costs[p][q] {
                self.costs[p][q] = cost;
                self.costs[q][p] = cost;
                self.reached[q] |= 1 << p;
                self.lowered_now[q] |= 1 << p;
                fallen |= 1 << q;
            }
        }
        self.reached[p] |= fallen;
        self.lowered_now[p] |= fallen;
    }

    /// Looks at an action again, beside those atoms where something that it reads has fallen.
    fn look_at(&mut self, number: usize, first_round: bool) {
        let Action { needs, adds, cost, .. } = self.actions[number];
        let cost = u32::from(cost);
        if adds == 0 {
            return;
        }
        let mut beside = 0;
        let mut reached = !0;
        if needs == 0 {
            for q in Members(self.carried[number]) {
                beside |= self.lowered[q] & 1 << q;
                reached &= !(1 << q) | self.reached[q];
            }
        }
        for r in Members(needs) {
            beside |= self.lowered[r];
            reached &= self.reached[r];
        }
        if needs & !reached != 0 || (beside == 0 && !first_round) {
            return;
        }
        if beside & needs != 0 || self.values[number] == NONE {
            // The needs' own value may have fallen, and with it everything; or it has not been looked at yet.
            let value = self.value(needs);
            if value < self.values[number] {
                self.values[number] = value;
                beside = !0;
                for p in Members(adds) {
                    self.lower(p, adds, |_| value + cost);
                }
            }
        }
        let beside = beside & reached & self.carried[number];
        if beside == 0 {
            return;
        }
        // value(needs joined with {q}), for each q beside the action.
        let mut values = [self.values[number]; MAX_ATOMS];
        if needs == 0 {
            for q in Members(beside) {
                values[q] = self.costs[q][q];
            }
        }
        for r in Members(needs) {
            let row = &self.costs[r];
            for q in Members(beside) {
                values[q] = values[q].max(row[q]);
            }
        }
        for p in Members(adds) {
            self.lower(p, beside, |q| values[q] + cost);
        }
    }
}

impl Estimator for Lowering {
    fn estimate(&mut self, state: Set) -> u32 {
        self.bound(state)
    }
}
