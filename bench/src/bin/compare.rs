//! `compare N SEED`: asks the product and this implementation about N generated files, and stops at the first
//! difference.

use std::env;
use std::fmt::Debug;
use std::process::ExitCode;

use bench::answers::{self, Reply};
use bench::generate::{self, Kind, Random};
use bench::product;
use bench::search::{search, Guide, Outcome, MAX_PLACES};
use bench::task::{read, Task};
use bench::Order;

/// Up to this many atoms, P^2 is small enough for every task.
const ATOMS_FOR_COMPILED: usize = 24;
/// Of the larger tasks, one in so many is compared with P^2 too.
const LARGE_COMPILED_EVERY: u64 = 50;
/// Searches that need more places than this are long; their listings are compared at every 25th file.
const PLACES_FOR_LISTING: usize = 64;
const LONG_LISTING_EVERY: u64 = 25;
/// The room for a listing: four lines, with a plan of at most 2,047 actions.
const TEXT_ROOM: usize = 16_384;
/// What stands in a plan buffer before a call.
const UNWRITTEN: u16 = 0xA5A5;

/// A call that the two implementations answer differently.
struct Difference {
    call: String,
    product: String,
    own: String,
}

/// How many calls of each sort were compared.
#[derive(Default)]
struct Calls {
    checks: u64,
    bounds: u64,
    searches: u64,
    listings: u64,
    /// Those among the listings whose search needs many places.
    long_listings: u64,
}

/// One file to compare.
struct Comparison<'c> {
    file: &'c [u8],
    task: Option<Task>,
    /// The number of this file among all.
    number: u64,
    random: &'c mut Random,
    calls: &'c mut Calls,
}

fn judge<T: Debug>(same: bool, call: String, product: T, own: T) -> Result<(), Difference> {
    if same {
        return Ok(());
    }
    Err(Difference { call, product: format!("{product:?}"), own: format!("{own:?}") })
}

impl Comparison<'_> {
    fn run(&mut self) -> Result<(), Difference> {
        self.check()?;
        for way in 0..2 {
            for order in 1..=2 {
                if way == 0 || order == 1 || self.affords_compiled() {
                    self.bound(way, order)?;
                }
            }
        }
        self.searches()?;
        self.refused_calls()?;
        let is_long = self.has_long_search();
        if !is_long || self.number.is_multiple_of(LONG_LISTING_EVERY) {
            self.calls.long_listings += u64::from(is_long);
            self.listing()?;
        }
        Ok(())
    }

    fn is_small(&self) -> bool {
        self.task.as_ref().is_none_or(|task| task.atoms <= ATOMS_FOR_COMPILED)
    }

    fn affords_compiled(&self) -> bool {
        self.is_small() || self.number.is_multiple_of(LARGE_COMPILED_EVERY)
    }

    /// Whether the listing's search needs many places.
    fn has_long_search(&self) -> bool {
        self.task.as_ref().is_some_and(|task| {
            let answer = search(task, Guide::Direct(Order::Two), PLACES_FOR_LISTING, MAX_PLACES);
            answer.outcome == Outcome::OutOfPlaces
        })
    }

    fn check(&mut self) -> Result<(), Difference> {
        self.calls.checks += 1;
        let (product, own) = (product::check(self.file), answers::check(self.file));
        judge(product.agrees_with(&own), "check".to_string(), product, own)
    }

    fn bound(&mut self, way: u32, order: u32) -> Result<(), Difference> {
        self.calls.bounds += 1;
        let (product, own) = (product::bound(self.file, way, order), answers::bound(self.file, way, order));
        judge(product.agrees_with(&own), format!("bound way {way} order {order}"), product, own)
    }

    fn searches(&mut self) -> Result<(), Difference> {
        for (estimator, order) in [(0, 1), (1, 1), (1, 2), (2, 1), (2, 2)] {
            let is_heavy = estimator == 2 && order == 2 && !self.is_small();
            if is_heavy && !self.affords_compiled() {
                continue;
            }
            let most = match (is_heavy, self.is_small()) {
                (true, _) => 3,
                (_, true) => 60,
                _ => 16,
            };
            let places = self.random.between(0, most) as u32;
            self.search(estimator, order, places)?;
        }
        // Now and then a blind search in as many places as there are.
        if self.random.once_in(10) {
            let places = [2_047, 4_096, 4_097, u32::MAX][self.random.below(4)];
            self.search(0, 0, places)?;
        }
        Ok(())
    }

    fn search(&mut self, estimator: u32, order: u32, places: u32) -> Result<(), Difference> {
        self.calls.searches += 1;
        let room = if self.random.once_in(3) { self.random.between(0, 6) } else { self.random.between(7, 4_096) };
        let answer = |ask: fn(&[u8], u32, u32, u32, &mut [u16]) -> Reply<4>| {
            let mut plan = vec![UNWRITTEN; room];
            let reply = ask(self.file, estimator, order, places, &mut plan);
            let end = plan.iter().rposition(|&action| action != UNWRITTEN).map_or(0, |last| last + 1);
            plan.truncate(end);
            (reply, plan)
        };
        let (product, own) = (answer(product::search), answer(answers::search));
        let same = product.0.agrees_with(&own.0) && product.1 == own.1;
        let call = format!("search estimator {estimator} order {order} places {places} plan room {room}");
        judge(same, call, product, own)
    }

    /// Calls with numbers that do not exist.
    fn refused_calls(&mut self) -> Result<(), Difference> {
        let wrong_order = [0, 3, u32::MAX][self.random.below(3)];
        let wrong_name = [3, 4, u32::MAX][self.random.below(3)];
        match self.random.below(4) {
            0 => self.bound(wrong_name, 1),
            1 => self.bound(self.number as u32 % 2, wrong_order),
            2 => self.search(wrong_name, 2, 5),
            _ => self.search(1 + self.number as u32 % 2, wrong_order, 5),
        }
    }

    fn listing(&mut self) -> Result<(), Difference> {
        self.calls.listings += 1;
        let room = if self.random.once_in(20) { self.random.below(60) } else { TEXT_ROOM };
        let answer = |ask: fn(&[u8], &mut [u8]) -> Reply<1>| {
            let mut text = vec![0; room];
            let reply = ask(self.file, &mut text);
            let length = if reply.number == 0 { reply.told[0] as usize } else { 0 };
            (reply, String::from_utf8_lossy(&text[..length.min(room)]).into_owned())
        };
        let (product, own) = (answer(product::listing), answer(answers::listing));
        let same = product.0.agrees_with(&own.0) && product.1 == own.1;
        judge(same, format!("listing in {room} bytes"), product, own)
    }
}

fn hexadecimal(bytes: &[u8]) -> String {
    bytes.iter().map(|byte| format!("{byte:02X}")).collect()
}

/// Compares file number `number`, and tells what was found different.
fn compare(kind: Kind, number: u64, seed: u64, calls: &mut Calls) -> Result<bool, ()> {
    let mut random = Random::new(seed ^ number.wrapping_mul(0xD6E8_FEB8_6659_FD93));
    let file = generate::file(kind, &mut random);
    let task = read(&file).ok();
    let accepted = task.is_some();
    let mut comparison = Comparison { file: &file, task, number, random: &mut random, calls };
    let Err(difference) = comparison.run() else {
        return Ok(accepted);
    };
    println!("DIFFERENT: file {number} of seed {seed}, {}, {} bytes", kind.name(), file.len());
    println!("call:    {}", difference.call);
    println!("product: {}", difference.product);
    println!("own:     {}", difference.own);
    println!("file:    {}", hexadecimal(&file));
    Err(())
}

fn main() -> ExitCode {
    let arguments: Vec<Option<u64>> = env::args().skip(1).map(|argument| argument.parse().ok()).collect();
    let [Some(count), Some(seed)] = arguments[..] else {
        eprintln!("usage: compare N SEED");
        return ExitCode::from(2);
    };
    let mut calls = Calls::default();
    let mut files = [0u64; Kind::ALL.len()];
    let mut accepted = [0u64; Kind::ALL.len()];
    for number in 0..count {
        // The step brings every kind in turn to what is done at every 25th or 50th file.
        let index = ((number + number / 50) % Kind::ALL.len() as u64) as usize;
        match compare(Kind::ALL[index], number, seed, &mut calls) {
            Ok(is_accepted) => {
                files[index] += 1;
                accepted[index] += u64::from(is_accepted);
            }
            Err(()) => return ExitCode::FAILURE,
        }
    }
    println!("no difference in {count} files of seed {seed}");
    for (index, kind) in Kind::ALL.iter().enumerate() {
        println!("{:>8} {}, {} accepted", files[index], kind.name(), accepted[index]);
    }
    let Calls { checks, bounds, searches, listings, long_listings } = calls;
    println!("calls: {checks} checks, {bounds} bounds, {searches} searches, {listings} listings ({long_listings} of long searches)");
    ExitCode::SUCCESS
}
