//! The two engines that are held against the second one in the calls that write
//! text and in the refined weight of a split.

use crate::calls::{farzhudyl_listing, farzhudyl_pool, farzhudyl_refined_weight};
use crate::lent::{Lent, FLIPS};
use crate::parts::Parts;
use second_engine::{compare, halves, pooling, weighing};

type ListingCall = unsafe extern "C" fn(i32, *const u8, usize, *mut u8, usize) -> i64;
type PoolCall = unsafe extern "C" fn(*const u8, usize, *const u8, usize, *mut u8, usize) -> i64;
type WeightCall = unsafe extern "C" fn(usize, *const i32, usize, u32, *mut i64) -> i32;

extern "C" {
    fn plain_listing(
        kind: i32,
        sheet: *const u8,
        sheet_len: usize,
        out: *mut u8,
        out_len: usize,
    ) -> i64;
    fn plain_pool(
        first: *const u8,
        first_len: usize,
        second: *const u8,
        second_len: usize,
        out: *mut u8,
        out_len: usize,
    ) -> i64;
    fn plain_refined_weight(
        n: usize,
        pairs: *const i32,
        pairs_len: usize,
        side: u32,
        weight: *mut i64,
    ) -> i32;
}

pub struct Engine {
    name: &'static str,
    listing: ListingCall,
    pool: PoolCall,
    weight: WeightCall,
}

const ENGINES: [Engine; 2] = [
    Engine {
        name: "farzhudyl",
        listing: farzhudyl_listing,
        pool: farzhudyl_pool,
        weight: farzhudyl_refined_weight,
    },
    Engine {
        name: "plain C",
        listing: plain_listing,
        pool: plain_pool,
        weight: plain_refined_weight,
    },
];

// All slices are lent for the call only, and with their lengths.

impl Engine {
    pub fn listing(&self, kind: i32, sheet: &[u8], out: &mut [u8]) -> i64 {
        unsafe {
            (self.listing)(
                kind,
                sheet.as_ptr(),
                sheet.len(),
                out.as_mut_ptr(),
                out.len(),
            )
        }
    }

    pub fn pool(&self, first: &[u8], second: &[u8], out: &mut [u8]) -> i64 {
        unsafe {
            (self.pool)(
                first.as_ptr(),
                first.len(),
                second.as_ptr(),
                second.len(),
                out.as_mut_ptr(),
                out.len(),
            )
        }
    }

    /// The number and the weight that are given, whatever the slot held; nothing
    /// beside the slot is written, and the list stays.
    pub fn weigh(&self, n: usize, pairs: &[i32], side: u32) -> weighing::Given {
        let call = |flip| {
            let (list, mut lent) = (pairs.to_vec(), Lent::new(1, flip));
            let (values, length) = (list.as_ptr(), list.len());
            let number =
                unsafe { (self.weight)(n, values, length, side, lent.slice().as_mut_ptr()) };
            let weight = lent.slice()[0];
            lent.check(&[weight])?;
            match compare::equal(&list, pairs) {
                true => Ok((i64::from(number), weight)),
                false => Err("changed the list itself".to_string()),
            }
        };
        let [first, second] = FLIPS.map(call);
        match (first?, second?) {
            (one, other) if one == other => Ok(one),
            both => Err(format!("gives {both:?}, by what the slot held")),
        }
    }

    pub fn check_listing(&self, expected: &compare::Expected) -> Result<(), String> {
        compare::check(self.name, |k, s, o| self.listing(k, s, o), expected)
    }

    /// A sheet without a point is answered as before there were half points.
    pub fn check_whole(&self, case: &compare::Case) -> Result<i64, String> {
        halves::check_whole(self.name, |k, s, o| self.listing(k, s, o), case.clone())
    }

    pub fn check_pool(&self, expected: &pooling::Expected) -> Result<(), String> {
        pooling::check(self.name, |f, s, o| self.pool(f, s, o), expected)
    }

    pub fn check_weight(&self, expected: &weighing::Expected) -> Result<(), String> {
        weighing::check(self.name, |n, p, s| self.weigh(n, p, s), expected)
    }
}

/// What became of each engine; its first failure ends its part.
pub struct Outcomes([Result<(), String>; ENGINES.len()]);

impl Default for Outcomes {
    fn default() -> Self {
        Outcomes(ENGINES.map(|_| Ok(())))
    }
}

impl Outcomes {
    pub fn each(&mut self, mut test: impl FnMut(&Engine) -> Result<(), String>) {
        for (engine, outcome) in ENGINES.iter().zip(&mut self.0) {
            if outcome.is_ok() {
                *outcome = test(engine);
            }
        }
    }

    /// The first failure of any.
    pub fn all(self) -> Result<(), String> {
        self.0.into_iter().collect()
    }

    pub fn add_to(self, parts: &mut Parts, what: &str) {
        for (engine, outcome) in ENGINES.iter().zip(self.0) {
            parts.add(&format!("{}, {what}", engine.name), outcome);
        }
    }
}
