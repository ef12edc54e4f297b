//! A second implementation of the planner of task files, written from its documents alone.
//!
//! It serves two ends: its answers are compared with the product's on many generated tasks, and its times are the
//! measure for the product's times.

pub mod answers;
pub mod bounds;
pub mod compiled;
pub mod generate;
pub mod listing;
pub mod search;
pub mod table;
pub mod task;
pub mod wheel;

#[cfg(feature = "product")]
pub mod product;

/// What stands for "none" wherever a bound or an estimate is a plain number.
pub const NONE: u32 = u32::MAX;

/// The m of h^m and P^m.
#[derive(Clone, Copy, Debug, PartialEq, Eq)]
pub enum Order {
    One,
    Two,
}

impl Order {
    pub const BOTH: [Order; 2] = [Order::One, Order::Two];

    /// m as a number.
    pub fn number(self) -> u32 {
        match self {
            Order::One => 1,
            Order::Two => 2,
        }
    }
}
