//! The library zimbralosa for Rust programs: slices go in, nothing is added.
//!
//! `bindings/c/zimbralosa.h` says what each store holds after each outcome, docs/RULES.md has the rules.

/// A row in a store: 16 entries, then 1 for `< 0` or 0 for `<= 0`.
pub const ROW: usize = 17;
/// The least length of a work store and of the result store: 128 rows.
pub const LEAST: usize = 128 * ROW;

/// A state on the roll: its location, the place of its first row, its number of rows.
#[repr(C)]
#[derive(Clone, Copy, Debug, Default, PartialEq, Eq)]
pub struct Record {
    pub location: usize,
    pub first: usize,
    pub rows: usize,
}

/// What a caller lends for a region.
pub struct Stores<'a> {
    pub first: &'a mut [i32],
    pub second: &'a mut [i32],
    pub rows: &'a mut [i32],
    pub result: &'a mut [i32],
    pub roll: &'a mut [Record],
}

#[cfg(not(all(target_arch = "x86_64", target_os = "linux")))]
compile_error!("the archive is for x86-64 Linux");

extern "C" {
    fn zimbralosa_region(
        input: *const u8,
        input_length: usize,
        first: *mut i32,
        first_length: usize,
        second: *mut i32,
        second_length: usize,
        rows: *mut i32,
        rows_length: usize,
        result: *mut i32,
        result_length: usize,
        roll: *mut Record,
        roll_length: usize,
        budget: usize,
        counts: *mut u64,
        counts_length: usize,
    ) -> u8;

    fn zimbralosa_remove(
        first: *mut i32,
        first_length: usize,
        second: *mut i32,
        second_length: usize,
        count: usize,
        variables: *const u8,
        variables_length: usize,
        answer: *mut u64,
        answer_length: usize,
    ) -> u8;
}

/// The region of a model in the hex exchange: the outcome, and the numbers of states kept in the last attempt,
/// new attempts, successors and rows. On outcome 0 the region stands at the front of the result store.
pub fn region(input: &[u8], stores: Stores, budget: usize) -> (u8, [u64; 4]) {
    let mut counts = [0; 4];
    let outcome = region_counted(input, stores, budget, &mut counts);
    (outcome, counts)
}

/// The same with lent counts, of which at least 4 are needed for any to be written.
pub fn region_counted(input: &[u8], stores: Stores, budget: usize, counts: &mut [u64]) -> u8 {
    let Stores {
        first,
        second,
        rows,
        result,
        roll,
    } = stores;
    // SAFETY: each pointer goes with the length of its own slice; the slices that are written
    // are borrowed alone, so none overlaps another; `Record` is laid out as C lays out three
    // numbers of pointer width.
    unsafe {
        zimbralosa_region(
            input.as_ptr(),
            input.len(),
            first.as_mut_ptr(),
            first.len(),
            second.as_mut_ptr(),
            second.len(),
            rows.as_mut_ptr(),
            rows.len(),
            result.as_mut_ptr(),
            result.len(),
            roll.as_mut_ptr(),
            roll.len(),
            budget,
            counts.as_mut_ptr(),
            counts.len(),
        )
    }
}

/// Removes variables from the first `count` rows of the first store: the outcome, and whether the rows that
/// remain stand in the second store (1) or the first (0), and how many they are.
pub fn remove(
    first: &mut [i32],
    second: &mut [i32],
    count: usize,
    variables: &[u8],
) -> (u8, [u64; 2]) {
    let mut answer = [0; 2];
    let outcome = remove_answered(first, second, count, variables, &mut answer);
    (outcome, answer)
}

/// The same with a lent answer, which needs at least 2 numbers for any to be written.
pub fn remove_answered(
    first: &mut [i32],
    second: &mut [i32],
    count: usize,
    variables: &[u8],
    answer: &mut [u64],
) -> u8 {
    // SAFETY: as above.
    unsafe {
        zimbralosa_remove(
            first.as_mut_ptr(),
            first.len(),
            second.as_mut_ptr(),
            second.len(),
            count,
            variables.as_ptr(),
            variables.len(),
            answer.as_mut_ptr(),
            answer.len(),
        )
    }
}
