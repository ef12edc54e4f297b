//! The four calls of `include/shelfline.h`, as the product answers them.

use crate::answers::{Reply, UNTOLD};

extern "C" {
    fn shelfline_check(file: *const u8, file_length: usize, told: *mut u64, told_length: usize) -> u32;

    fn shelfline_bound(
        file: *const u8,
        file_length: usize,
        way: u32,
        order: u32,
        told: *mut u64,
        told_length: usize,
    ) -> u32;

    fn shelfline_search(
        file: *const u8,
        file_length: usize,
        estimator: u32,
        order: u32,
        places: u32,
        plan: *mut u16,
        plan_length: usize,
        told: *mut u64,
        told_length: usize,
    ) -> u32;

    fn shelfline_listing(
        file: *const u8,
        file_length: usize,
        text: *mut u8,
        text_length: usize,
        told: *mut u64,
        told_length: usize,
    ) -> u32;
}

pub fn check(file: &[u8]) -> Reply<2> {
    let mut told = [UNTOLD; 2];
    // Safety: each pointer goes with the number of elements behind it.
    let number = unsafe { shelfline_check(file.as_ptr(), file.len(), told.as_mut_ptr(), told.len()) };
    Reply { number, told }
}

pub fn bound(file: &[u8], way: u32, order: u32) -> Reply<2> {
    let mut told = [UNTOLD; 2];
    // Safety: as above.
    let number = unsafe { shelfline_bound(file.as_ptr(), file.len(), way, order, told.as_mut_ptr(), told.len()) };
    Reply { number, told }
}

pub fn search(file: &[u8], estimator: u32, order: u32, places: u32, plan: &mut [u16]) -> Reply<4> {
    let mut told = [UNTOLD; 4];
    // Safety: as above.
    let number = unsafe {
        shelfline_search(
            file.as_ptr(),
            file.len(),
            estimator,
            order,
            places,
            plan.as_mut_ptr(),
            plan.len(),
            told.as_mut_ptr(),
            told.len(),
        )
    };
    Reply { number, told }
}

pub fn listing(file: &[u8], text: &mut [u8]) -> Reply<1> {
    let mut told = [UNTOLD; 1];
    // Safety: as above.
    let number = unsafe {
        shelfline_listing(file.as_ptr(), file.len(), text.as_mut_ptr(), text.len(), told.as_mut_ptr(), told.len())
    };
    Reply { number, told }
}
