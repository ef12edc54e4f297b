//! The worked examples of the documents.

use bench::answers;
use bench::bounds::direct;
use bench::compiled::{compiled, size, Compiled, Size};
use bench::listing::{listing, seconds};
use bench::search::{search, Guide, Outcome, Place};
use bench::task::{read, write, Action, Fault, Task};
use bench::{Order, NONE};

/// The carriage that takes a tub to the window and comes back.
fn shuttle() -> Task {
    let action = |needs, adds, removes, cost| Action { needs, adds, removes, cost };
    Task {
        atoms: 4,
        actions: vec![
            action(0b0001, 0b0010, 0b0001, 5),
            action(0b0010, 0b0001, 0b0010, 5),
            action(0b0001, 0b0100, 0b0000, 2),
            action(0b0110, 0b1000, 0b0100, 1),
        ],
        start: 0b0001,
        goal: 0b1001,
    }
}

fn zero_loop() -> Task {
    let action = |needs, adds| Action { needs, adds, removes: 0, cost: 0 };
    Task { atoms: 2, actions: vec![action(0b01, 0b10), action(0b10, 0b01)], start: 0, goal: 0b01 }
}

fn bytes(hexadecimal: &str) -> Vec<u8> {
    hexadecimal.split_whitespace().map(|byte| u8::from_str_radix(byte, 16).unwrap()).collect()
}

/// Both ways to a bound, which must agree.
fn bound(task: &Task, order: Order) -> u32 {
    let bound = direct(task, order);
    assert_eq!(compiled(task, order), bound);
    bound
}

#[test]
fn bounds_of_the_shuttle() {
    assert_eq!(bound(&shuttle(), Order::One), 6);
    assert_eq!(bound(&shuttle(), Order::Two), 13);
}

#[test]
fn bounds_of_the_shuttle_that_cannot_come_back() {
    let mut task = shuttle();
    task.close(1);
    assert_eq!(bound(&task, Order::One), 6);
    assert_eq!(bound(&task, Order::Two), NONE);
}

#[test]
fn entries_of_the_shuttle() {
    // {0}, {1}, {2}, {3}, {0, 1}, {0, 2}, {1, 2}, {0, 3}, {1, 3}, {2, 3}
    let sets = [0b0001, 0b0010, 0b0100, 0b1000, 0b0011, 0b0101, 0b0110, 0b1001, 0b1010, 0b1100];
    let entries = [0, 5, 2, 8, NONE, 2, 7, 13, 8, 15];
    for (set, entry) in sets.into_iter().zip(entries) {
        assert_eq!(bound(&Task { goal: set, ..shuttle() }, Order::Two), entry, "{set:04b}");
    }
    for (set, entry) in sets.into_iter().zip([0, 5, 2, 6]) {
        assert_eq!(bound(&Task { goal: set, ..shuttle() }, Order::One), entry, "{set:04b}");
    }
}

#[test]
fn loop_of_cost_0() {
    assert_eq!(bound(&zero_loop(), Order::One), NONE);
    assert_eq!(bound(&zero_loop(), Order::Two), NONE);
    let text = "task 2 2\nm1 2 2 none -\nm2 3 4 none -\nplan none\n";
    assert_eq!(listing(&write(&zero_loop())), text);
}

#[test]
fn meta_actions_of_the_shuttle() {
    let compiled = Compiled::new(&shuttle(), Order::Two);
    assert_eq!(compiled.size(), Size { atoms: 10, actions: 13 });
    assert_eq!(size(&shuttle(), Order::Two), compiled.size());
    assert_eq!(size(&shuttle(), Order::One), Compiled::new(&shuttle(), Order::One).size());
    let expected: [(&[u16], &[u16], u16); 13] = [
        (&[0], &[1], 5),
        (&[0, 2, 5], &[1, 6], 5),
        (&[0, 3, 7], &[1, 8], 5),
        (&[1], &[0], 5),
        (&[1, 2, 6], &[0, 5], 5),
        (&[1, 3, 8], &[0, 7], 5),
        (&[0], &[2], 2),
        (&[0], &[2, 5], 2),
        (&[0, 1, 4], &[2, 6], 2),
        (&[0, 3, 7], &[2, 9], 2),
        (&[1, 2, 6], &[3], 1),
        (&[0, 1, 2, 4, 5, 6], &[3, 7], 1),
        (&[1, 2, 6], &[3, 8], 1),
    ];
    for (number, (needs, adds, cost)) in expected.into_iter().enumerate() {
        assert_eq!(compiled.meta_action(number), (needs.to_vec(), adds.to_vec(), cost), "meta-action {number}");
    }
}

fn table_of_the_shuttle() -> Vec<Place> {
    let place = |state, paid, estimate, parent, action, open| Place { state, paid, estimate, parent, action, open };
    vec![
        place(0b0001, 0, 13, 0, 0, false),
        place(0b0010, 5, 18, 0, 0, true),
        place(0b0101, 2, 11, 0, 2, false),
        place(0b0110, 7, 6, 2, 0, false),
        place(0b1010, 8, 5, 3, 3, false),
        place(0b1001, 13, 0, 4, 1, true),
    ]
}

#[test]
fn search_of_the_shuttle() {
    for guide in [Guide::Direct(Order::Two), Guide::Compiled(Order::Two)] {
        let answer = search(&shuttle(), guide, 6, 4);
        assert_eq!(answer.outcome, Outcome::Found { plan: vec![2, 0, 3, 1], cost: 13 });
        assert_eq!(answer.places, table_of_the_shuttle());

        let answer = search(&shuttle(), guide, 5, 4);
        assert_eq!(answer.outcome, Outcome::OutOfPlaces);
        let mut places = table_of_the_shuttle();
        places.truncate(5);
        assert_eq!(answer.places, places);

        let answer = search(&shuttle(), guide, 6, 3);
        assert_eq!(answer.outcome, Outcome::PlanTooLong);
        assert_eq!(answer.places, table_of_the_shuttle());
    }
}

#[test]
fn search_at_its_edges() {
    let solved = Task { goal: 0b0001, ..shuttle() };
    let answer = search(&solved, Guide::Blind, 1, 0);
    assert_eq!(answer.outcome, Outcome::Found { plan: vec![], cost: 0 });
    assert_eq!(answer.places.len(), 1);
    assert_eq!(search(&solved, Guide::Blind, 0, 0).outcome, Outcome::OutOfPlaces);

    // A present state whose estimate is none wants no place.
    let answer = search(&zero_loop(), Guide::Direct(Order::One), 0, 0);
    assert_eq!(answer.outcome, Outcome::None);
    assert_eq!(answer.places.len(), 0);
    assert_eq!(search(&zero_loop(), Guide::Blind, 5, 5).places.len(), 1);
}

/// A goal is accepted when its place is chosen, not when it is placed.
#[test]
fn cheaper_way_to_the_goal() {
    let action = |needs, adds, removes, cost| Action { needs, adds, removes, cost };
    let actions = vec![action(0b001, 0b100, 0b001, 10), action(0b001, 0b010, 0b001, 1), action(0b010, 0b100, 0b010, 1)];
    let task = Task { atoms: 3, actions, start: 0b001, goal: 0b100 };
    let answer = search(&task, Guide::Blind, 10, 10);
    assert_eq!(answer.outcome, Outcome::Found { plan: vec![1, 2], cost: 2 });
}

#[test]
fn listings() {
    assert_eq!(listing(&write(&shuttle())), "task 4 4\nm1 4 4 6 1\nm2 10 13 13 1\nplan 13 1 2 0 3 1\n");
    let idle =
        Task { atoms: 0, actions: vec![Action { needs: 0, adds: 0, removes: 0, cost: 1 }; 4], start: 0, goal: 0 };
    assert_eq!(listing(&write(&idle)), "task 0 4\nm1 0 4 0 0\nm2 0 4 0 0\nplan 0 0\n");
    let mut file = write(&shuttle());
    file[1] = 0x41;
    assert_eq!(listing(&file), "refused 3 1\n");
    assert_eq!(listing(&[]), "refused 1 0\n");
    for (tenths, whole) in [(0, 0), (4, 0), (5, 1), (13, 1), (14, 1), (15, 2), (25, 3)] {
        assert_eq!(seconds(tenths), whole);
    }
}

#[test]
fn file_of_the_shuttle() {
    let file = bytes(
        "01 04 00 04 03  00 00 00 00 00 00 00 01  00 00 00 00 00 00 00 09 \
         0F  00 00 00 00 00 00 00 01  00 00 00 00 00 00 00 02  00 00 00 00 00 00 00 01  00 05 \
         0F  00 00 00 00 00 00 00 02  00 00 00 00 00 00 00 01  00 00 00 00 00 00 00 02  00 05 \
         0B  00 00 00 00 00 00 00 01  00 00 00 00 00 00 00 04  00 02 \
         07  00 00 00 00 00 00 00 06  00 00 00 00 00 00 00 08  00 00 00 00 00 00 00 04",
    );
    assert_eq!(file.len(), 119);
    assert_eq!(write(&shuttle()), file);
    assert_eq!(read(&file), Ok(shuttle()));
}

#[test]
fn accepted_files() {
    let files = [
        "01 00 00 00 00",
        "01 40 00 00 00",
        "01 01 00 00 01  00 00 00 00 00 00 00 01",
        "01 01 00 00 03  00 00 00 00 00 00 00 01  00 00 00 00 00 00 00 01",
        "01 00 00 01 00  00",
        "01 00 00 01 00  08 00 00",
        "01 00 00 01 00  08 FF FF",
    ];
    for file in files {
        let file = bytes(file);
        assert_eq!(write(&read(&file).unwrap()), file);
    }
}

#[test]
fn refused_files() {
    let none = None;
    let refusals = [
        ("01 00 00 00", 1, 4, none),
        ("01 41 00 00 00", 3, 1, none),
        ("01 00 01 01 00", 3, 2, none),
        ("01 00 00 00 04", 4, 4, none),
        ("01 00 00 00 00 00", 8, 5, none),
        ("", 1, 0, none),
        ("02", 2, 0, none),
        ("01", 1, 1, none),
        ("01 41", 3, 1, none),
        ("01 00 02", 1, 3, none),
        ("01 00 02 00", 3, 2, none),
        ("01 01 00 00 01  00 00 00 00 00 00 00 00", 6, 5, none),
        ("01 01 00 00 01  00 00 00 00 00 00 00 02", 5, 5, none),
        ("01 01 00 00 01  00 00 00 00", 1, 9, none),
        ("01 00 00 01 00", 1, 5, Some(0)),
        ("01 00 00 01 00  10", 4, 5, Some(0)),
        ("01 00 00 01 00  08 00 01", 6, 6, Some(0)),
        ("01 00 00 01 00  08 00", 1, 7, Some(0)),
        ("01 01 00 01 00  06  00 00 00 00 00 00 00 01  00 00 00 00 00 00 00 01", 7, 5, Some(0)),
    ];
    for (file, number, place, action) in refusals {
        assert_eq!(read(&bytes(file)), Err(Fault { number, place, action }), "{file}");
    }
}

#[test]
fn replies_to_calls() {
    let file = write(&shuttle());
    assert_eq!(answers::check(&file).told, [4, 4]);
    assert_eq!(answers::bound(&file, 0, 2).told, [1, 13]);
    assert_eq!(answers::bound(&file, 2, 3).number, 9);
    assert_eq!(answers::bound(&file, 1, 3).number, 10);
    assert_eq!(answers::bound(&file[..50], 2, 3).number, 1);
    let mut plan = [99; 5];
    let reply = answers::search(&file, 1, 2, 6, &mut plan);
    assert_eq!((reply.number, reply.told, plan), (0, [1, 4, 13, 6], [2, 0, 3, 1, 99]));
    let reply = answers::search(&file, 1, 2, 5, &mut plan);
    assert_eq!((reply.number, reply.told), (16, [0, 0, 0, 5]));
}
