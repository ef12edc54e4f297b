//! Times of the product and of this implementation on the same files, as a Markdown table.
//!
//! The two take turns, so that whatever else the machine does falls on both. Both begin at the bytes of the file.

use std::hint::black_box;
use std::path::{Path, PathBuf};
use std::time::{Duration, Instant};
use std::{env, fs, process};

use bench::generate::dense_at_limits;
use bench::search::{search, search_by, Guide, MAX_PLACES};
use bench::table::Lowering;
use bench::task::{read, write, Task};
use bench::{bounds, compiled, product, Order};

const EXAMPLES: [&str; 3] = ["logistics-5.task", "logistics-6.task", "heavy-1.task"];
const DENSE_SEED: u64 = 1;
const PLACES: usize = 2048;

/// How long one line of the table may take, and how many turns it has at least and at most.
const BUDGET: Duration = Duration::from_secs(2);
const LEAST_TURNS: usize = 5;
const MOST_TURNS: usize = 501;
/// What is shorter than this is run several times in one turn.
const SHORTEST: Duration = Duration::from_micros(20);

fn median(mut times: Vec<f64>) -> f64 {
    times.sort_by(f64::total_cmp);
    times[times.len() / 2]
}

/// The time of one run in microseconds, out of `runs` runs.
fn time(runs: u32, mut run: impl FnMut()) -> f64 {
    let begin = Instant::now();
    for _ in 0..runs {
        run();
    }
    begin.elapsed().as_secs_f64() * 1e6 / f64::from(runs)
}

/// How often to run something in one turn.
fn runs_in_a_turn(run: &mut impl FnMut()) -> u32 {
    let once = time(1, &mut *run).max(0.01);
    (SHORTEST.as_secs_f64() * 1e6 / once).ceil() as u32
}

/// The median times of two runs that take turns.
fn take_turns(mut product: impl FnMut(), mut own: impl FnMut()) -> (f64, f64) {
    let (product_runs, own_runs) = (runs_in_a_turn(&mut product), runs_in_a_turn(&mut own));
    let mut product_times = Vec::new();
    let mut own_times = Vec::new();
    let begin = Instant::now();
    while own_times.len() < LEAST_TURNS || (own_times.len() < MOST_TURNS && begin.elapsed() < BUDGET) {
        product_times.push(time(product_runs, &mut product));
        own_times.push(time(own_runs, &mut own));
    }
    (median(product_times), median(own_times))
}

fn print_line(file: &str, what: &str, product: impl FnMut(), own: impl FnMut()) {
    let (product, own) = take_turns(product, own);
    println!("| {file} | {what} | {product:.1} | {own:.1} | {:.1} |", product / own);
}

/// Takes a result, so that what led to it is not left out.
fn done<T>(result: T) {
    black_box(result);
}

fn accepted(bytes: &[u8]) -> Task {
    read(bytes).expect("the files to time are accepted")
}

fn print_lines(name: &str, bytes: &[u8]) {
    print_line(name, "reading", || done(product::check(bytes)), || done(read(bytes)));
    let direct = |order: Order| {
        print_line(
            name,
            &format!("direct m = {}", order.number()),
            || done(product::bound(bytes, 0, order.number())),
            || done(bounds::direct(&accepted(bytes), order)),
        );
    };
    direct(Order::One);
    direct(Order::Two);
    print_line(
        name,
        "direct m = 2, whole table",
        || done(product::bound(bytes, 0, 2)),
        || {
            let task = accepted(bytes);
            done(Lowering::new(&task).bound(task.start));
        },
    );
    print_line(
        name,
        "compiled m = 2",
        || done(product::bound(bytes, 1, 2)),
        || done(compiled::compiled(&accepted(bytes), Order::Two)),
    );
    let mut plan = vec![0; MAX_PLACES];
    print_line(
        name,
        "search, direct m = 2",
        || done(product::search(bytes, 1, 2, PLACES as u32, &mut plan)),
        || done(search(&accepted(bytes), Guide::Direct(Order::Two), PLACES, MAX_PLACES)),
    );
    print_line(
        name,
        "search, direct m = 2, whole tables",
        || done(product::search(bytes, 1, 2, PLACES as u32, &mut plan)),
        || {
            let task = accepted(bytes);
            done(search_by(&task, &mut Lowering::new(&task), PLACES, MAX_PLACES));
        },
    );
}

/// The folder of the examples: the first argument, or the one beside this package.
fn examples_folder() -> PathBuf {
    env::args_os().nth(1).map_or_else(|| Path::new(env!("CARGO_MANIFEST_DIR")).join("../examples"), PathBuf::from)
}

fn main() {
    let folder = examples_folder();
    println!("Medians in microseconds.");
    println!();
    println!("| file | what | product | tuned | product / tuned |");
    println!("|---|---|---:|---:|---:|");
    for name in EXAMPLES {
        let path = folder.join(name);
        match fs::read(&path) {
            Ok(bytes) => print_lines(name, &bytes),
            Err(error) => {
                eprintln!("cannot read {}: {error}", path.display());
                process::exit(1);
            }
        }
    }
    print_lines("dense, at the limits", &write(&dense_at_limits(DENSE_SEED)));
}
