//! Slices lent to a call, with guard slots on both sides.

use second_engine::compare::equal;
use std::fmt::Debug;

/// What a slot can hold.
pub trait Slot: Copy + PartialEq + Debug {
    fn of(bits: u64) -> Self;
}

macro_rules! slots {
    ($($number:ty)*) => { $(impl Slot for $number {
        fn of(bits: u64) -> Self {
            bits as $number
        }
    })* };
}
slots!(u32 i32 i64 usize);

const GUARD: usize = 16;

/// Every slot holds the pattern, or its complement, so that nothing written can
/// hide behind what was there.
pub struct Lent<T> {
    flip: u64,
    slots: Vec<T>,
}

/// The pattern, and its complement.
pub const FLIPS: [u64; 2] = [0, u64::MAX];

impl<T: Slot> Lent<T> {
    pub fn new(room: usize, flip: u64) -> Self {
        let bits = |place| (place as u64 + 1).wrapping_mul(0x9e37_79b9_7f4a_7c15) ^ flip;
        let slots = (0..room + 2 * GUARD).map(|place| T::of(bits(place)));
        Lent {
            flip,
            slots: slots.collect(),
        }
    }

    pub fn slice(&mut self) -> &mut [T] {
        let end = self.slots.len() - GUARD;
        &mut self.slots[GUARD..end]
    }

    /// The first slots hold what was written, all others what they held.
    pub fn check(&self, written: &[T]) -> Result<(), String> {
        let mut wanted: Lent<T> = Lent::new(self.slots.len() - 2 * GUARD, self.flip);
        wanted.slice()[..written.len()].copy_from_slice(written);
        if equal(&self.slots, &wanted.slots) {
            return Ok(());
        }
        let mut both = self.slots.iter().zip(&wanted.slots);
        match both.position(|(found, wanted)| found != wanted) {
            None => Ok(()),
            Some(at) => Err(format!(
                "slot {} holds {:?}, wanted {:?}",
                at as i64 - GUARD as i64,
                self.slots[at],
                wanted.slots[at]
            )),
        }
    }
}
