//! Tasks and files for comparing, each fixed by a seed.

use crate::task::{all_below, write, Action, Set, Task, MAX_ACTIONS, MAX_ATOMS};

/// A small generator of random numbers.
pub struct Random(u64);

impl Random {
    pub fn new(seed: u64) -> Random {
        Random(seed)
    }

    pub fn number(&mut self) -> u64 {
        self.0 = self.0.wrapping_add(0x9E37_79B9_7F4A_7C15);
        let mut x = self.0;
        x = (x ^ (x >> 30)).wrapping_mul(0xBF58_476D_1CE4_E5B9);
        x = (x ^ (x >> 27)).wrapping_mul(0x94D0_49BB_1331_11EB);
        x ^ (x >> 31)
    }

    /// A number below `limit`, or 0 where that is 0.
    pub fn below(&mut self, limit: usize) -> usize {
        ((u128::from(self.number()) * limit as u128) >> 64) as usize
    }

    /// A number from `least` to `most`.
    pub fn between(&mut self, least: usize, most: usize) -> usize {
        least + self.below(most - least + 1)
    }

    /// True once in `times` times.
    pub fn once_in(&mut self, times: usize) -> bool {
        self.below(times) == 0
    }

    /// A set that has each atom below `atoms` with the chance `percent`.
    pub fn set(&mut self, atoms: usize, percent: usize) -> Set {
        (0..atoms).fold(0, |set, atom| set | Set::from(self.below(100) < percent) << atom)
    }

    /// A set of atoms below `atoms`, from `least` to `most` draws. Draws may coincide.
    pub fn few(&mut self, atoms: usize, least: usize, most: usize) -> Set {
        let draws = if atoms == 0 { 0 } else { self.between(least, most) };
        (0..draws).fold(0, |set, _| set | 1 << self.below(atoms))
    }

    /// One atom below `atoms`, as a set.
    pub fn one(&mut self, atoms: usize) -> Set {
        self.few(atoms, 1, 1)
    }
}

/// The kinds of files that are generated.
#[derive(Clone, Copy, Debug, PartialEq, Eq)]
pub enum Kind {
    Tiny,
    Transport,
    Sparse,
    Dense,
    ZeroLoops,
    Unsolvable,
    Limits,
    Damaged,
}

impl Kind {
    pub const ALL: [Kind; 8] = [
        Kind::Tiny,
        Kind::Transport,
        Kind::Sparse,
        Kind::Dense,
        Kind::ZeroLoops,
        Kind::Unsolvable,
        Kind::Limits,
        Kind::Damaged,
    ];

    pub fn name(self) -> &'static str {
        match self {
            Kind::Tiny => "tiny",
            Kind::Transport => "transport",
            Kind::Sparse => "random sparse",
            Kind::Dense => "random dense",
            Kind::ZeroLoops => "loops of cost 0",
            Kind::Unsolvable => "unsolvable",
            Kind::Limits => "at the limits",
            Kind::Damaged => "damaged files",
        }
    }
}

/// A file of a kind.
pub fn file(kind: Kind, random: &mut Random) -> Vec<u8> {
    match kind {
        Kind::Damaged => damaged(random),
        _ => write(&task(kind, random)),
    }
}

/// A task of a kind. For damaged files it is the task that is damaged then.
pub fn task(kind: Kind, random: &mut Random) -> Task {
    match kind {
        Kind::Tiny => tiny(random),
        Kind::Transport => transport(random),
        Kind::Sparse => sparse(random),
        Kind::Dense => dense(random),
        Kind::ZeroLoops => zero_loops(random),
        Kind::Unsolvable => unsolvable(random),
        Kind::Limits => at_limits(random),
        Kind::Damaged => {
            let kind = Kind::ALL[random.below(Kind::ALL.len() - 1)];
            task(kind, random)
        }
    }
}

fn cost(random: &mut Random) -> u16 {
    match random.below(8) {
        0 => 0,
        1 | 2 => 1,
        3..=5 => random.between(2, 9) as u16,
        6 => random.between(10, 300) as u16,
        _ => [255, 256, 65_534, 65_535, random.below(65_536) as u16][random.below(5)],
    }
}

fn action(needs: Set, adds: Set, removes: Set, cost: u16) -> Action {
    Action { needs, adds, removes: removes & !adds, cost }
}

fn tiny(random: &mut Random) -> Task {
    let atoms = random.between(0, 5);
    let actions = random.between(0, 7);
    let percent = random.between(15, 50);
    let actions = (0..actions)
        .map(|_| {
            let (needs, adds) = (random.set(atoms, percent), random.set(atoms, percent));
            action(needs, adds, random.set(atoms, percent), cost(random))
        })
        .collect();
    Task { atoms, actions, start: random.set(atoms, 40), goal: random.set(atoms, 40) }
}

/// Carriages that bring parcels from place to place.
fn transport(random: &mut Random) -> Task {
    let (stops, carriages, parcels) = loop {
        let (stops, carriages, parcels) = (random.between(2, 7), random.between(1, 3), random.between(1, 4));
        let atoms = carriages * stops + parcels * (stops + carriages);
        let actions = carriages * stops * 2 + 2 * parcels * carriages * stops;
        if atoms <= MAX_ATOMS && actions <= MAX_ACTIONS {
            break (stops, carriages, parcels);
        }
    };
    let carriage_at = |carriage: usize, stop: usize| carriage * stops + stop;
    let parcel_at = |parcel: usize, spot: usize| carriages * stops + parcel * (stops + carriages) + spot;
    let mut actions = Vec::new();
    for carriage in 0..carriages {
        for stop in 0..stops {
            let next = (stop + 1) % stops;
            let (here, there) = (1 << carriage_at(carriage, stop), 1 << carriage_at(carriage, next));
            actions.push(action(here, there, here, random.between(0, 12) as u16));
            actions.push(action(there, here, there, random.between(0, 12) as u16));
        }
    }
    let (load, unload) = (random.between(0, 3) as u16, random.between(0, 3) as u16);
    for parcel in 0..parcels {
        for carriage in 0..carriages {
            for stop in 0..stops {
                let place = 1 << carriage_at(carriage, stop);
                let outside = 1 << parcel_at(parcel, stop);
                let inside = 1 << parcel_at(parcel, stops + carriage);
                actions.push(action(place | outside, inside, outside, load));
                actions.push(action(place | inside, outside, inside, unload));
            }
        }
    }
    let mut start = 0;
    let mut goal = 0;
    for carriage in 0..carriages {
        start |= 1 << carriage_at(carriage, random.below(stops));
        if random.once_in(3) {
            goal |= 1 << carriage_at(carriage, random.below(stops));
        }
    }
    for parcel in 0..parcels {
        start |= 1 << parcel_at(parcel, random.below(stops));
        if !random.once_in(4) {
            goal |= 1 << parcel_at(parcel, random.below(stops));
        }
    }
    let atoms = carriages * stops + parcels * (stops + carriages);
    Task { atoms, actions, start, goal }
}

fn sparse(random: &mut Random) -> Task {
    let atoms = match random.below(4) {
        0 => random.between(1, 10),
        1 | 2 => random.between(6, 24),
        _ => random.between(20, MAX_ATOMS),
    };
    let actions = random.between(1, (atoms * 4).min(MAX_ACTIONS));
    let actions = (0..actions)
        .map(|_| {
            let (needs, adds) = (random.few(atoms, 0, 3), random.few(atoms, 1, 2));
            action(needs, adds, random.few(atoms, 0, 2), cost(random))
        })
        .collect();
    Task { atoms, actions, start: random.few(atoms, 1, 4), goal: random.few(atoms, 1, 4) }
}

fn dense(random: &mut Random) -> Task {
    let atoms = if random.once_in(4) { random.between(20, MAX_ATOMS) } else { random.between(2, 20) };
    let actions = random.between(1, (atoms * 3).min(MAX_ACTIONS));
    let (needs, adds, removes) = (random.between(5, 60), random.between(5, 60), random.between(5, 60));
    let actions = (0..actions)
        .map(|_| {
            let (needs, adds) = (random.set(atoms, needs), random.set(atoms, adds));
            action(needs, adds, random.set(atoms, removes), cost(random))
        })
        .collect();
    let (start, goal) = (random.between(30, 90), random.between(10, 90));
    Task { atoms, actions, start: random.set(atoms, start), goal: random.set(atoms, goal) }
}

/// Rings of actions of cost 0, in part without a way in.
fn zero_loops(random: &mut Random) -> Task {
    let atoms = random.between(2, 20);
    let mut actions = Vec::new();
    for _ in 0..random.between(1, 4) {
        let length = random.between(1, 6);
        let ring: Vec<usize> = (0..length).map(|_| random.below(atoms)).collect();
        for (place, &atom) in ring.iter().enumerate() {
            let next = ring[(place + 1) % length];
            let beside = if random.once_in(4) { random.one(atoms) } else { 0 };
            let removes = if random.once_in(2) { 1 << atom } else { 0 };
            actions.push(action(1 << atom | beside, 1 << next, removes, 0));
        }
    }
    for _ in 0..random.between(0, 3) {
        let cost = if random.once_in(2) { 0 } else { cost(random) };
        actions.push(action(random.few(atoms, 0, 2), random.one(atoms), random.one(atoms), cost));
    }
    Task { atoms, actions, start: random.few(atoms, 0, 3), goal: random.few(atoms, 1, 3) }
}

/// A task that is robbed of its plans, or of most of them.
fn unsolvable(random: &mut Random) -> Task {
    let mut task = match random.below(3) {
        0 => transport(random),
        1 => sparse(random),
        _ => dense(random),
    };
    match random.below(3) {
        // A goal that nobody adds.
        0 => {
            let lost = random.one(task.atoms);
            task.start &= !lost;
            task.goal |= lost;
            for action in &mut task.actions {
                action.adds &= !lost;
            }
        }
        // Some actions are closed.
        1 => {
            for number in 0..task.actions.len() {
                if random.once_in(2) {
                    task.close(number);
                }
            }
        }
        // Two goals, each of which goes when the other comes.
        _ => {
            let (one, other) = (random.one(task.atoms), random.one(task.atoms));
            task.goal |= one | other;
            task.start &= !one;
            for action in &mut task.actions {
                if one != other && action.adds & one != 0 {
                    action.adds &= !other;
                    action.removes |= other;
                } else if one != other && action.adds & other != 0 {
                    action.removes |= one;
                }
            }
        }
    }
    task
}

fn at_limits(random: &mut Random) -> Task {
    let (needs, adds, removes) = match random.below(4) {
        0 => (3, 3, 3),
        1 => (8, 4, 8),
        2 => (random.between(1, 30), random.between(1, 40), random.between(1, 40)),
        _ => (random.between(0, 100), random.between(0, 100), random.between(0, 100)),
    };
    let mut task = limits_task(random, needs, adds, removes);
    let kept = if random.once_in(4) { random.between(250, MAX_ACTIONS) } else { MAX_ACTIONS };
    task.actions.truncate(kept);
    task
}

fn limits_task(random: &mut Random, needs: usize, adds: usize, removes: usize) -> Task {
    let atoms = MAX_ATOMS;
    let actions = (0..MAX_ACTIONS)
        .map(|_| {
            let (needs, adds) = (random.set(atoms, needs), random.set(atoms, adds));
            action(needs, adds, random.set(atoms, removes), cost(random))
        })
        .collect();
    let (start, goal) = (random.between(5, 60), random.between(1, 20));
    Task { atoms, actions, start: random.set(atoms, start), goal: random.set(atoms, goal) }
}

/// A task of 64 atoms and 256 actions with large sets, whose goal is far from the start.
///
/// The atoms are spread over levels. An action needs several atoms of one level and some of the levels below it, and
/// adds several of the next level.
pub fn dense_at_limits(seed: u64) -> Task {
    const LEVELS: usize = 8;
    const WIDTH: usize = MAX_ATOMS / LEVELS;
    let mut random = Random::new(seed);
    let level_set = |level: usize| all_below(WIDTH) << (level * WIDTH);
    let some_of = |random: &mut Random, set: Set, percent: usize| set & random.set(MAX_ATOMS, percent);
    let actions = (0..MAX_ACTIONS)
        .map(|number| {
            let level = number % (LEVELS - 1);
            let below = all_below(level * WIDTH);
            let needs = some_of(&mut random, level_set(level), 50) | some_of(&mut random, below, 10);
            let adds = some_of(&mut random, level_set(level + 1), 40) | some_of(&mut random, below, 40);
            let removes = some_of(&mut random, all_below(MAX_ATOMS), 5) & !level_set(level + 1);
            action(needs, adds, removes, random.between(2, 60) as u16)
        })
        .collect();
    Task { atoms: MAX_ATOMS, actions, start: level_set(0), goal: level_set(LEVELS - 1) }
}

/// A file that some damage was done to, so that most are refused; or bytes that never were a file.
fn damaged(random: &mut Random) -> Vec<u8> {
    if random.once_in(8) {
        return noise(random);
    }
    let mut task = task(Kind::Damaged, random);
    if random.once_in(2) {
        spoil(&mut task, random);
        return write(&task);
    }
    let mut bytes = write(&task);
    for _ in 0..random.between(1, 3) {
        damage(&mut bytes, random);
    }
    bytes
}

/// Makes a task unlawful in some places: sets with an atom out of range, and atoms that are added and removed at once.
fn spoil(task: &mut Task, random: &mut Random) {
    for _ in 0..random.between(1, 3) {
        let out_of_range = if random.once_in(2) { random.one(MAX_ATOMS) & !all_below(task.atoms) } else { 0 };
        if task.actions.is_empty() || random.once_in(6) {
            let set = if random.once_in(2) { &mut task.start } else { &mut task.goal };
            *set |= out_of_range;
            continue;
        }
        let number = random.below(task.actions.len());
        let one = random.one(task.atoms);
        let action = &mut task.actions[number];
        match random.below(5) {
            0 => action.needs |= out_of_range,
            1 => action.adds |= out_of_range,
            2 => action.removes |= out_of_range,
            _ => {
                action.adds |= one;
                action.removes |= one;
            }
        }
    }
}

fn noise(random: &mut Random) -> Vec<u8> {
    let length = random.between(0, 40);
    let mut bytes: Vec<u8> = (0..length).map(|_| random.number() as u8 & 0x0F).collect();
    let header = [1, random.between(0, 66) as u8, random.below(3) as u8, random.below(4) as u8, random.below(5) as u8];
    for (byte, plausible) in bytes.iter_mut().zip(header) {
        if !random.once_in(12) {
            *byte = plausible;
        }
    }
    bytes
}

fn damage(bytes: &mut Vec<u8>, random: &mut Random) {
    let length = bytes.len();
    // Half of the damage is done near the front, where the header is.
    let reach = if random.once_in(2) { length.min(30) } else { length };
    let place = random.below(reach);
    match random.below(10) {
        0 | 1 if place < length => bytes[place] ^= 1 << random.below(8),
        2 if place < length => bytes[place] = random.number() as u8,
        3 if place < length => bytes[place] = 0,
        4 => bytes.truncate(place),
        5 => bytes.insert(place, random.number() as u8 & 0x0F),
        6 if place < length => {
            bytes.remove(place);
        }
        7 => {
            let more = random.between(1, 9);
            bytes.extend((0..more).map(|_| 0));
        }
        // Writes a cost of 1 where a cost may stand.
        8 if place + 2 <= length => bytes[place..place + 2].copy_from_slice(&[0, 1]),
        // Empties a whole set, or what stands where one may stand.
        _ => {
            let end = (place + 8).min(length);
            bytes[place.min(length)..end].fill(0);
        }
    }
}
