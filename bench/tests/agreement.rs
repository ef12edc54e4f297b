//! The tuned bounds and the search against slow ones that follow the documents word for word.

use std::collections::HashMap;

use bench::bounds::direct;
use bench::compiled::{compiled, size, Compiled};
use bench::generate::{self, Kind, Random};
use bench::search::{search, Guide, Outcome, Place};
use bench::table::Lowering;
use bench::task::{read, write, Action, Set, Task};
use bench::{Order, NONE};

/// The largest lawful table of a task, by the two rules and nothing else.
struct Naive {
    entries: HashMap<Set, u32>,
}

impl Naive {
    fn new(task: &Task, order: Order) -> Naive {
        let mut entries = HashMap::new();
        for i in 0..task.atoms {
            let first = if order == Order::Two { 0 } else { i };
            for j in first..=i {
                let set = 1 << i | 1 << j;
                entries.insert(set, if set & !task.start == 0 { 0 } else { NONE });
            }
        }
        let sets: Vec<Set> = entries.keys().copied().collect();
        let mut naive = Naive { entries };
        loop {
            let mut lowered = false;
            for &set in &sets {
                let entry = naive.by_the_rules(task, set);
                if entry < naive.entries[&set] {
                    naive.entries.insert(set, entry);
                    lowered = true;
                }
            }
            if !lowered {
                return naive;
            }
        }
    }

    fn by_the_rules(&self, task: &Task, set: Set) -> u32 {
        if set & !task.start == 0 {
            return 0;
        }
        let by_action = |action: &Action| match self.value(set & !action.adds | action.needs) {
            NONE => NONE,
            value => value + u32::from(action.cost),
        };
        task.actions
            .iter()
            .filter(|action| action.adds & set != 0 && action.removes & set == 0)
            .map(by_action)
            .min()
            .unwrap_or(NONE)
    }

    fn value(&self, set: Set) -> u32 {
        self.entries.iter().filter(|(inner, _)| *inner & !set == 0).map(|(_, entry)| *entry).max().unwrap_or(0)
    }
}

/// Some hundred tasks of at most `atoms` atoms, of all kinds that have such.
fn tasks(atoms: usize, count: usize) -> impl Iterator<Item = Task> {
    let kinds = [Kind::Tiny, Kind::Transport, Kind::Sparse, Kind::Dense, Kind::ZeroLoops, Kind::Unsolvable];
    (0..)
        .map(move |seed| generate::task(kinds[seed % kinds.len()], &mut Random::new(seed as u64)))
        .filter(move |task| task.atoms <= atoms)
        .take(count)
}

#[test]
fn tuned_bounds_equal_naive_ones() {
    for (number, task) in tasks(12, 400).enumerate() {
        for order in Order::BOTH {
            let naive = Naive::new(&task, order).value(task.goal);
            assert_eq!(direct(&task, order), naive, "direct {order:?} of task {number}: {task:?}");
            assert_eq!(compiled(&task, order), naive, "compiled {order:?} of task {number}: {task:?}");
        }
        let naive = Naive::new(&task, Order::Two).value(task.goal);
        assert_eq!(Lowering::new(&task).bound(task.start), naive, "whole table of task {number}: {task:?}");
    }
}

#[test]
fn every_entry_equals_the_naive_one() {
    for task in tasks(9, 60) {
        let naive = Naive::new(&task, Order::Two);
        let mut lowering = Lowering::new(&task);
        lowering.bound(task.start);
        for (&set, &entry) in &naive.entries {
            let aimed = Task { goal: set, ..task.clone() };
            assert_eq!(direct(&aimed, Order::Two), entry);
            assert_eq!(compiled(&aimed, Order::Two), entry);
            let (first, last) = (set.trailing_zeros() as usize, 63 - set.leading_zeros() as usize);
            assert_eq!(lowering.entry(first, last), entry);
        }
    }
}

#[test]
fn large_bounds_agree() {
    for seed in 0..40 {
        let task = generate::task(Kind::Limits, &mut Random::new(seed));
        let bound = direct(&task, Order::Two);
        assert_eq!(Lowering::new(&task).bound(task.start), bound, "seed {seed}");
        if seed % 8 == 0 {
            assert_eq!(compiled(&task, Order::Two), bound, "seed {seed}");
        }
        assert_eq!(compiled(&task, Order::One), direct(&task, Order::One), "seed {seed}");
    }
}

#[test]
fn size_without_building() {
    for task in tasks(64, 100) {
        for order in Order::BOTH {
            assert_eq!(size(&task, order), Compiled::new(&task, order).size());
        }
    }
}

/// The search as it is laid down, with plain loops over the table.
fn plain_search(task: &Task, estimate: impl Fn(Set) -> u32, room: usize) -> (Option<usize>, bool, Vec<Place>) {
    let mut places: Vec<Place> = Vec::new();
    let first = estimate(task.start);
    if first == NONE {
        return (None, false, places);
    }
    if room == 0 {
        return (None, true, places);
    }
    places.push(Place { state: task.start, paid: 0, estimate: first, parent: 0, action: 0, open: true });
    loop {
        let open = (0..places.len()).filter(|&place| places[place].open);
        let Some(chosen) = open.min_by_key(|&place| (places[place].paid + places[place].estimate, place)) else {
            return (None, false, places);
        };
        if task.goal & !places[chosen].state == 0 {
            return (Some(chosen), false, places);
        }
        places[chosen].open = false;
        for (number, action) in task.actions.iter().enumerate() {
            let Place { state, paid, .. } = places[chosen];
            if action.needs & !state != 0 {
                continue;
            }
            let state = state & !action.removes | action.adds;
            let paid = paid + u32::from(action.cost);
            let (parent, action) = (chosen as u16, number as u16);
            match places.iter_mut().find(|place| place.state == state) {
                Some(place) if place.open && place.paid > paid => {
                    (place.paid, place.parent, place.action) = (paid, parent, action);
                }
                Some(_) => {}
                None => {
                    let estimate = estimate(state);
                    if estimate == NONE {
                        continue;
                    }
                    if places.len() == room {
                        return (None, true, places);
                    }
                    places.push(Place { state, paid, estimate, parent, action, open: true });
                }
            }
        }
    }
}

#[test]
fn search_leaves_the_same_table() {
    for (number, task) in tasks(14, 200).enumerate() {
        let room = 1 + number % 70;
        for guide in [Guide::Blind, Guide::Direct(Order::One), Guide::Direct(Order::Two)] {
            let estimate = |state| match guide {
                Guide::Direct(order) => direct(&Task { start: state, ..task.clone() }, order),
                _ => 0,
            };
            let (goal, refused, places) = plain_search(&task, estimate, room);
            let answer = search(&task, guide, room, usize::MAX);
            assert_eq!(answer.places, places, "task {number}: {task:?}");
            match answer.outcome {
                Outcome::Found { plan, cost } => {
                    assert_eq!(Some(cost), goal.map(|place| places[place].paid));
                    check_plan(&task, &plan, cost);
                }
                Outcome::None => assert!(goal.is_none() && !refused),
                Outcome::OutOfPlaces => assert!(refused),
                Outcome::PlanTooLong => panic!("no plan is too long here"),
            }
        }
    }
}

fn check_plan(task: &Task, plan: &[u16], cost: u32) {
    let mut state = task.start;
    let mut paid = 0;
    for &number in plan {
        let action = &task.actions[usize::from(number)];
        assert!(action.applies_in(state));
        state = action.successor(state);
        paid += u32::from(action.cost);
    }
    assert_eq!(task.goal & !state, 0);
    assert_eq!(paid, cost);
}

#[test]
fn generated_files_are_read_back() {
    for seed in 0..400 {
        let kind = Kind::ALL[seed as usize % Kind::ALL.len()];
        let file = generate::file(kind, &mut Random::new(seed));
        match read(&file) {
            Ok(task) => assert_eq!(write(&task), file),
            Err(fault) => assert!(kind == Kind::Damaged, "{kind:?} of seed {seed}: {fault}"),
        }
    }
}

#[test]
fn damaged_files_have_every_fault() {
    let mut met = [0; 9];
    for seed in 0..2_000 {
        let file = generate::file(Kind::Damaged, &mut Random::new(seed));
        met[read(&file).map_or_else(|fault| fault.number as usize, |_| 0)] += 1;
    }
    assert!(met.iter().all(|&files| files >= 20), "accepted, then refused by 1 to 8: {met:?}");
}

#[test]
fn faults_other_than_1_do_not_depend_on_what_follows() {
    for seed in 0..300 {
        let file = generate::file(Kind::Damaged, &mut Random::new(seed));
        if let Err(fault) = read(&file) {
            let mut longer = file.clone();
            longer.extend_from_slice(&[0xFF; 30]);
            if fault.number != 1 {
                assert_eq!(read(&longer), Err(fault));
            } else {
                assert_eq!(fault.place, file.len());
            }
        }
    }
}
