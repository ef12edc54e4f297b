//! The four calls of `include/shelfline.h`, as this implementation answers them.

use crate::bounds::direct;
use crate::compiled::compiled;
use crate::listing;
use crate::search::{self, Guide, Outcome};
use crate::task::{read, Fault, Task};
use crate::{Order, NONE};

/// What a call answers, and what it has told. A number that a call does not write stays `UNTOLD`.
#[derive(Clone, Copy, Debug, PartialEq, Eq)]
pub struct Reply<const N: usize> {
    pub number: u32,
    pub told: [u64; N],
}

/// What stands in `told` before a call.
pub const UNTOLD: u64 = 0xA5A5_A5A5_A5A5_A5A5;

impl<const N: usize> Reply<N> {
    fn granted(told: [u64; N]) -> Reply<N> {
        Reply { number: 0, told }
    }

    fn refused(number: u32) -> Reply<N> {
        Reply { number, told: [UNTOLD; N] }
    }

    fn faulty(fault: Fault) -> Reply<N> {
        let mut reply = Reply::refused(fault.number);
        reply.told[0] = fault.place as u64;
        reply.told[1] = fault.action.map_or(0, |action| action as u64 + 1);
        reply
    }

    /// Whether two replies are the same, as far as the header lays them down: what is told besides 9, 10 and 17 is left
    /// open.
    pub fn agrees_with(&self, other: &Reply<N>) -> bool {
        self.number == other.number && (matches!(self.number, 9 | 10 | 17) || self.told == other.told)
    }
}

fn order_of(m: u32) -> Option<Order> {
    match m {
        1 => Some(Order::One),
        2 => Some(Order::Two),
        _ => None,
    }
}

pub fn check(file: &[u8]) -> Reply<2> {
    match read(file) {
        Ok(task) => Reply::granted([task.atoms as u64, task.actions.len() as u64]),
        Err(fault) => Reply::faulty(fault),
    }
}

pub fn bound(file: &[u8], way: u32, order: u32) -> Reply<2> {
    let task = match read(file) {
        Ok(task) => task,
        Err(fault) => return Reply::faulty(fault),
    };
    let compute: fn(&Task, Order) -> u32 = match way {
        0 => direct,
        1 => compiled,
        _ => return Reply::refused(9),
    };
    let Some(order) = order_of(order) else {
        return Reply::refused(10);
    };
    match compute(&task, order) {
        NONE => Reply::granted([0, 0]),
        cost => Reply::granted([1, u64::from(cost)]),
    }
}

pub fn search(file: &[u8], estimator: u32, order: u32, places: u32, plan: &mut [u16]) -> Reply<4> {
    let task = match read(file) {
        Ok(task) => task,
        Err(fault) => return Reply::faulty(fault),
    };
    let guide = match (estimator, order_of(order)) {
        (0, _) => Guide::Blind,
        (1, Some(order)) => Guide::Direct(order),
        (2, Some(order)) => Guide::Compiled(order),
        (1 | 2, None) => return Reply::refused(10),
        _ => return Reply::refused(9),
    };
    let answer = search::search(&task, guide, places as usize, plan.len());
    let used = answer.places.len() as u64;
    match answer.outcome {
        Outcome::Found { plan: found, cost } => {
            plan[..found.len()].copy_from_slice(&found);
            Reply::granted([1, found.len() as u64, u64::from(cost), used])
        }
        Outcome::None => Reply::granted([0, 0, 0, used]),
        Outcome::OutOfPlaces => Reply { number: 16, told: [0, 0, 0, used] },
        Outcome::PlanTooLong => Reply::refused(17),
    }
}

pub fn listing(file: &[u8], text: &mut [u8]) -> Reply<1> {
    let listing = listing::listing(file);
    match text.get_mut(..listing.len()) {
        Some(front) => {
            front.copy_from_slice(listing.as_bytes());
            Reply::granted([listing.len() as u64])
        }
        None => Reply::refused(17),
    }
}
