//! A* over the states of a task, in a table of places.

use std::cmp::Reverse;
use std::collections::BinaryHeap;

use crate::bounds::Direct;
use crate::compiled::Compiled;
use crate::task::{Set, Task};
use crate::{Order, NONE};

/// The most places that a search uses.
pub const MAX_PLACES: usize = 4096;

/// Answers, for a state of the task it was made for, a cost that no plan undercuts, or `NONE`.
pub trait Estimator {
    fn estimate(&mut self, state: Set) -> u32;
}

pub struct Blind;

impl Estimator for Blind {
    fn estimate(&mut self, _: Set) -> u32 {
        0
    }
}

impl Estimator for Direct {
    fn estimate(&mut self, state: Set) -> u32 {
        self.bound(state)
    }
}

impl Estimator for Compiled {
    fn estimate(&mut self, state: Set) -> u32 {
        self.bound(state)
    }
}

/// The names of the estimators.
#[derive(Clone, Copy, Debug, PartialEq, Eq)]
pub enum Guide {
    Blind,
    Direct(Order),
    Compiled(Order),
}

#[derive(Clone, Copy, Debug, PartialEq, Eq)]
pub struct Place {
    pub state: Set,
    pub paid: u32,
    pub estimate: u32,
    pub parent: u16,
    pub action: u16,
    pub open: bool,
}

#[derive(Clone, Debug, PartialEq, Eq)]
pub enum Outcome {
    Found {
        plan: Vec<u16>,
        cost: u32,
    },
    None,
    /// Refused by 16.
    OutOfPlaces,
    /// Refused by 17.
    PlanTooLong,
}

/// How a search ended, and the table that it left.
#[derive(Clone, Debug, PartialEq, Eq)]
pub struct Answer {
    pub outcome: Outcome,
    pub places: Vec<Place>,
}

/// What is known of a state that was met before.
#[derive(Clone, Copy, PartialEq, Eq)]
enum Known {
    Place(u16),
    /// Its estimate is none.
    Hopeless,
}

/// A hash table from states to what is known of them, with open addressing.
struct States {
    slots: Vec<(Set, Option<Known>)>,
    count: usize,
}

/// What looking for a state comes upon: the state, or the slot that it would go to.
enum Looked {
    Known(Known),
    Free(usize),
}

impl States {
    fn new() -> States {
        States { slots: vec![(0, None); 1024], count: 0 }
    }

    #[inline]
    fn look(&self, state: Set) -> Looked {
        let mask = self.slots.len() - 1;
        let mut slot = (state.wrapping_mul(0x9E37_79B9_7F4A_7C15) >> 32) as usize & mask;
        loop {
            match self.slots[slot] {
                (_, None) => return Looked::Free(slot),
                (held, Some(known)) if held == state => return Looked::Known(known),
                _ => slot = (slot + 1) & mask,
            }
        }
    }

    /// Enters a state at the free slot that `look` has told for it.
    fn enter(&mut self, slot: usize, state: Set, known: Known) {
        self.slots[slot] = (state, Some(known));
        self.count += 1;
        if self.count * 2 > self.slots.len() {
            self.grow();
        }
    }

    #[cold]
    fn grow(&mut self) {
        let doubled = vec![(0, None); self.slots.len() * 2];
        for (state, known) in std::mem::replace(&mut self.slots, doubled) {
            if known.is_some() {
                if let Looked::Free(slot) = self.look(state) {
                    self.slots[slot] = (state, known);
                }
            }
        }
    }
}

/// A place to choose: first by paid + estimate, then by number. Entries that a cheaper way has overtaken stay in the
/// heap and are passed over.
type Choice = Reverse<(u32, u16)>;

struct Search<'t, E> {
    task: &'t Task,
    estimator: &'t mut E,
    room: usize,
    places: Vec<Place>,
    states: States,
    choices: BinaryHeap<Choice>,
}

/// The refusal by 16.
struct NoPlaceLeft;

impl<E: Estimator> Search<'_, E> {
    fn offer(&mut self, number: u16) {
        let place = &self.places[usize::from(number)];
        self.choices.push(Reverse((place.paid + place.estimate, number)));
    }

    /// A state that has no place yet gets one, unless it is hopeless.
    fn meet(&mut self, slot: usize, mut place: Place) -> Result<(), NoPlaceLeft> {
        place.estimate = self.estimator.estimate(place.state);
        if place.estimate == NONE {
            self.states.enter(slot, place.state, Known::Hopeless);
            return Ok(());
        }
        if self.places.len() == self.room {
            return Err(NoPlaceLeft);
        }
        let number = self.places.len() as u16;
        self.states.enter(slot, place.state, Known::Place(number));
        self.places.push(place);
        self.offer(number);
        Ok(())
    }

    /// The open place with the least paid + estimate, and among equals the first.
    fn choose(&mut self) -> Option<u16> {
        while let Some(Reverse((total, number))) = self.choices.pop() {
            let place = &self.places[usize::from(number)];
            if place.open && place.paid + place.estimate == total {
                return Some(number);
            }
        }
        None
    }

    /// Closes a place and tries all actions in its state.
    fn expand(&mut self, chosen: u16) -> Result<(), NoPlaceLeft> {
        let task = self.task;
        self.places[usize::from(chosen)].open = false;
        let Place { state, paid, .. } = self.places[usize::from(chosen)];
        for (number, action) in task.actions.iter().enumerate() {
            if !action.applies_in(state) {
                continue;
            }
            let next = Place {
                state: action.successor(state),
                paid: paid + u32::from(action.cost),
                estimate: 0,
                parent: chosen,
                action: number as u16,
                open: true,
            };
            match self.states.look(next.state) {
                Looked::Free(slot) => self.meet(slot, next)?,
                Looked::Known(Known::Hopeless) => {}
                Looked::Known(Known::Place(held)) => self.improve(held, &next),
            }
        }
        Ok(())
    }

    /// An open place takes a cheaper way.
    fn improve(&mut self, number: u16, way: &Place) {
        let place = &mut self.places[usize::from(number)];
        if place.open && place.paid > way.paid {
            place.paid = way.paid;
            place.parent = way.parent;
            place.action = way.action;
            self.offer(number);
        }
    }

    fn plan_to(&self, goal: u16) -> Vec<u16> {
        let mut plan = Vec::new();
        let mut number = goal;
        while number != 0 {
            let place = &self.places[usize::from(number)];
            plan.push(place.action);
            number = place.parent;
        }
        plan.reverse();
        plan
    }

    fn run(&mut self, plan_room: usize) -> Result<Outcome, NoPlaceLeft> {
        let start = self.task.start;
        if let Looked::Free(slot) = self.states.look(start) {
            let first = Place { state: start, paid: 0, estimate: 0, parent: 0, action: 0, open: true };
            self.meet(slot, first)?;
        }
        let goal = self.task.goal;
        while let Some(chosen) = self.choose() {
            let place = self.places[usize::from(chosen)];
            if goal & !place.state == 0 {
                let plan = self.plan_to(chosen);
                if plan.len() > plan_room {
                    return Ok(Outcome::PlanTooLong);
                }
                return Ok(Outcome::Found { plan, cost: place.paid });
            }
            self.expand(chosen)?;
        }
        Ok(Outcome::None)
    }
}

/// Searches with a given estimator, in a table of `places` places and for plans of at most `plan_room` actions.
pub fn search_by<E: Estimator>(task: &Task, estimator: &mut E, places: usize, plan_room: usize) -> Answer {
    let room = places.min(MAX_PLACES);
    let mut search = Search {
        task,
        estimator,
        room,
        places: Vec::with_capacity(room),
        states: States::new(),
        choices: BinaryHeap::new(),
    };
    let outcome = search.run(plan_room).unwrap_or(Outcome::OutOfPlaces);
    Answer { outcome, places: search.places }
}

/// Searches with a named estimator.
pub fn search(task: &Task, guide: Guide, places: usize, plan_room: usize) -> Answer {
    match guide {
        Guide::Blind => search_by(task, &mut Blind, places, plan_room),
        Guide::Direct(order) => search_by(task, &mut Direct::new(task, order), places, plan_room),
        Guide::Compiled(order) => search_by(task, &mut Compiled::new(task, order), places, plan_room),
    }
}
