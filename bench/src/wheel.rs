//! A queue of numbered events by time, for time that only moves forward and looks ahead at most one dearest action.
//!
//! An event lies in the slot `time & mask`. As no event is further ahead than the dearest action, no two times share a
//! slot. Two layers of bit masks over the slots find the next slot that is not empty.

const END: u16 = u16::MAX;

pub struct Wheel {
    mask: usize,
    /// The first event of each slot; it counts only where the slot's bit is set.
    heads: Vec<u16>,
    /// One bit for each slot.
    used: Vec<u64>,
    /// One bit for each word of `used`.
    used_words: [u64; 16],
    /// The event after each event in its slot.
    next: Vec<u16>,
}

/// The events of one slot, newest first.
#[derive(Clone, Copy)]
pub struct Chain(u16);

impl Wheel {
    /// A wheel for steps of at most `dearest`, and events below `events` (at most 65,535).
    pub fn new(dearest: u16, events: usize) -> Wheel {
        let slots = (usize::from(dearest) + 1).next_power_of_two().max(64);
        Wheel {
            mask: slots - 1,
            heads: vec![0; slots],
            used: vec![0; slots / 64],
            used_words: [0; 16],
            next: vec![0; events],
        }
    }

    /// Takes out all events.
    pub fn clear(&mut self) {
        for group in 0..self.used_words.len() {
            while self.used_words[group] != 0 {
                let word = group * 64 + self.used_words[group].trailing_zeros() as usize;
                self.used[word] = 0;
                self.used_words[group] &= self.used_words[group] - 1;
            }
        }
    }

    /// Puts in an event. It must not be in the wheel already.
    #[inline]
    pub fn put(&mut self, time: u32, event: u16) {
        let slot = time as usize & self.mask;
        let (word, bit) = (slot / 64, 1u64 << (slot % 64));
        let empty = self.used[word] & bit == 0;
        self.next[usize::from(event)] = if empty { END } else { self.heads[slot] };
        self.heads[slot] = event;
        self.used[word] |= bit;
        self.used_words[word / 64] |= 1 << (word % 64);
    }

    /// The first used slot in the circle from `slot` on.
    #[inline]
    fn first_used_from(&self, slot: usize) -> Option<usize> {
        let word = slot / 64;
        let here = self.used[word] & (!0 << (slot % 64));
        if here != 0 {
            return Some(word * 64 + here.trailing_zeros() as usize);
        }
        self.first_used_word_from(word + 1)
            .or_else(|| self.first_used_word_from(0))
            .map(|word| word * 64 + self.used[word].trailing_zeros() as usize)
    }

    #[inline]
    fn first_used_word_from(&self, word: usize) -> Option<usize> {
        let mut group = word / 64;
        let mut bits = *self.used_words.get(group)? & (!0 << (word % 64));
        while bits == 0 {
            group += 1;
            bits = *self.used_words.get(group)?;
        }
        Some(group * 64 + bits.trailing_zeros() as usize)
    }

    /// Takes out all events of the earliest time that is not before `now`.
    #[inline]
    pub fn take_earliest(&mut self, now: u32) -> Option<(u32, Chain)> {
        let from = now as usize & self.mask;
        let slot = self.first_used_from(from)?;
        let word = slot / 64;
        self.used[word] &= !(1 << (slot % 64));
        if self.used[word] == 0 {
            self.used_words[word / 64] &= !(1 << (word % 64));
        }
        let ahead = slot.wrapping_sub(from) & self.mask;
        Some((now + ahead as u32, Chain(self.heads[slot])))
    }

    /// Takes the next event off a chain.
    #[inline]
    pub fn step(&self, chain: &mut Chain) -> Option<usize> {
        let event = chain.0;
        if event == END {
            return None;
        }
        chain.0 = self.next[usize::from(event)];
        Some(usize::from(event))
    }
}
