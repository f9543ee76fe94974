//! The calls of include/farzhudyl.h, by the names and shapes that stand there.

type Linkage = unsafe extern "C" fn(usize, *const i32, usize, *mut u32, usize) -> i64;
type Anchored = unsafe extern "C" fn(usize, usize, *const i32, usize, *mut i32, usize) -> i64;

extern "C" {
    pub fn farzhudyl_listing(
        kind: i32,
        sheet: *const u8,
        sheet_len: usize,
        out: *mut u8,
        out_len: usize,
    ) -> i64;
    fn farzhudyl_numbers(
        kind: i32,
        n: usize,
        pairs: *const i32,
        pairs_len: usize,
        sets: *mut u32,
        sets_len: usize,
        indices: *mut i64,
        indices_len: usize,
    ) -> i64;
    fn farzhudyl_smallest_shared(
        kind: i32,
        n: usize,
        pairs: *const i32,
        pairs_len: usize,
        a: usize,
        b: usize,
        set: *mut u32,
    ) -> i64;
    pub fn farzhudyl_refined_weight(
        n: usize,
        pairs: *const i32,
        pairs_len: usize,
        side: u32,
        weight: *mut i64,
    ) -> i32;
    fn farzhudyl_single_linkage(
        n: usize,
        pairs: *const i32,
        pairs_len: usize,
        blocks: *mut u32,
        blocks_len: usize,
    ) -> i64;
    fn farzhudyl_average_linkage(
        n: usize,
        pairs: *const i32,
        pairs_len: usize,
        blocks: *mut u32,
        blocks_len: usize,
    ) -> i64;
    fn farzhudyl_anchored_scores(
        n: usize,
        anchor: usize,
        pairs: *const i32,
        pairs_len: usize,
        out: *mut i32,
        out_len: usize,
    ) -> i64;
    fn farzhudyl_distances_back(
        n: usize,
        anchor: usize,
        scores: *const i32,
        scores_len: usize,
        out: *mut i32,
        out_len: usize,
    ) -> i64;
    fn farzhudyl_pair_list(sheet: *const u8, sheet_len: usize, pairs: *mut i32) -> i64;
    fn farzhudyl_name(sheet: *const u8, sheet_len: usize, entry: usize, start: *mut usize)
        -> usize;
    pub fn farzhudyl_pool(
        first: *const u8,
        first_len: usize,
        second: *const u8,
        second_len: usize,
        out: *mut u8,
        out_len: usize,
    ) -> i64;
    fn farzhudyl_score(
        n: usize,
        pairs: *const i32,
        pairs_len: usize,
        a: usize,
        b: usize,
        score: *mut i64,
    ) -> i32;
}

// All slices are lent for the call only, and with their lengths.

pub fn numbers(kind: i32, n: usize, pairs: &[i32], sets: &mut [u32], indices: &mut [i64]) -> i64 {
    unsafe {
        farzhudyl_numbers(
            kind,
            n,
            pairs.as_ptr(),
            pairs.len(),
            sets.as_mut_ptr(),
            sets.len(),
            indices.as_mut_ptr(),
            indices.len(),
        )
    }
}

/// The line, or minus the refusal's number; the set is written to the one slot.
pub fn smallest_shared(
    kind: i32,
    n: usize,
    pairs: &[i32],
    a: usize,
    b: usize,
    set: &mut [u32],
) -> i64 {
    assert_eq!(set.len(), 1);
    let (list, length) = (pairs.as_ptr(), pairs.len());
    unsafe { farzhudyl_smallest_shared(kind, n, list, length, a, b, set.as_mut_ptr()) }
}

fn linkage(call: Linkage, n: usize, pairs: &[i32], blocks: &mut [u32]) -> i64 {
    let (slots, room) = (blocks.as_mut_ptr(), blocks.len());
    unsafe { call(n, pairs.as_ptr(), pairs.len(), slots, room) }
}

pub fn single_linkage(n: usize, pairs: &[i32], blocks: &mut [u32]) -> i64 {
    linkage(farzhudyl_single_linkage, n, pairs, blocks)
}

pub fn average_linkage(n: usize, pairs: &[i32], blocks: &mut [u32]) -> i64 {
    linkage(farzhudyl_average_linkage, n, pairs, blocks)
}

fn anchored(call: Anchored, n: usize, anchor: usize, list: &[i32], out: &mut [i32]) -> i64 {
    let (slots, room) = (out.as_mut_ptr(), out.len());
    unsafe { call(n, anchor, list.as_ptr(), list.len(), slots, room) }
}

pub fn anchored_scores(n: usize, anchor: usize, pairs: &[i32], out: &mut [i32]) -> i64 {
    anchored(farzhudyl_anchored_scores, n, anchor, pairs, out)
}

pub fn distances_back(n: usize, anchor: usize, scores: &[i32], out: &mut [i32]) -> i64 {
    anchored(farzhudyl_distances_back, n, anchor, scores, out)
}

/// The slots for the pair list of any sheet.
pub const MOST_PAIRS: usize = 528;

pub fn pair_list(sheet: &[u8], pairs: &mut [i32]) -> i64 {
    assert_eq!(pairs.len(), MOST_PAIRS);
    unsafe { farzhudyl_pair_list(sheet.as_ptr(), sheet.len(), pairs.as_mut_ptr()) }
}

/// The length of the name; where it starts is written to the one slot.
pub fn name(sheet: &[u8], entry: usize, start: &mut [usize]) -> usize {
    assert_eq!(start.len(), 1);
    unsafe { farzhudyl_name(sheet.as_ptr(), sheet.len(), entry, start.as_mut_ptr()) }
}

/// 0, and the score is written to the one slot; or the refusal's number.
pub fn score(n: usize, pairs: &[i32], a: usize, b: usize, score: &mut [i64]) -> i32 {
    assert_eq!(score.len(), 1);
    unsafe { farzhudyl_score(n, pairs.as_ptr(), pairs.len(), a, b, score.as_mut_ptr()) }
}
