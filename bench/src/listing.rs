//! The listing: what is told of a file, as text.

use std::fmt::Write;

use crate::bounds::direct;
use crate::compiled::size;
use crate::search::{search, Guide, Outcome, MAX_PLACES};
use crate::task::{read, Task};
use crate::{Order, NONE};

/// The places of the search that the listing makes.
pub const PLACES: usize = 2048;

/// Tenths of a second as whole seconds, a half up.
pub fn seconds(tenths: u32) -> u32 {
    (tenths + 5) / 10
}

/// The listing of a file, whether it is accepted or refused.
pub fn listing(file: &[u8]) -> String {
    match read(file) {
        Ok(task) => listing_of(&task),
        Err(fault) => format!("refused {} {}\n", fault.number, fault.place),
    }
}

/// The four lines of a task.
pub fn listing_of(task: &Task) -> String {
    let mut text = format!("task {} {}\n", task.atoms, task.actions.len());
    for order in Order::BOTH {
        push_bound(&mut text, task, order);
    }
    push_plan(&mut text, task);
    text
}

fn push_bound(text: &mut String, task: &Task, order: Order) {
    let size = size(task, order);
    let bound = direct(task, order);
    let _ = write!(text, "m{} {} {} ", order.number(), size.atoms, size.actions);
    let _ = match bound {
        NONE => writeln!(text, "none -"),
        _ => writeln!(text, "{} {}", bound, seconds(bound)),
    };
}

fn push_plan(text: &mut String, task: &Task) {
    text.push_str("plan");
    let _ = match search(task, Guide::Direct(Order::Two), PLACES, MAX_PLACES).outcome {
        Outcome::Found { plan, cost } => {
            let _ = write!(text, " {} {}", cost, seconds(cost));
            plan.iter().try_for_each(|action| write!(text, " {action}"))
        }
        Outcome::None => write!(text, " none"),
        Outcome::OutOfPlaces => write!(text, " refused 16"),
        Outcome::PlanTooLong => write!(text, " refused 17"),
    };
    text.push('\n');
}
