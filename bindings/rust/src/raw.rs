//! The library's own functions, as merotunki.h declares them, and a safe call of each for the rest of
//! this crate. All of the crate's unsafe code stands here. An app needs nothing of this module; it is
//! public for programs that compare the library's own calls with others.

pub use crate::answer::Answer;

/// Where a row lies: `merotunki_part`.
#[repr(C)]
#[derive(Clone, Copy, Debug, Default, PartialEq, Eq)]
#[allow(missing_docs)]
pub struct Part {
    pub start: u64,
    pub length: u64,
}

/// The settings: `merotunki_choice`.
#[repr(C)]
#[derive(Clone, Copy, Debug, Default, PartialEq)]
#[allow(missing_docs)]
pub struct Choice {
    pub limit: u64,
    pub credit: u64,
    pub tolerance: f64,
    pub absolute: f64,
    pub floor: f64,
}

/// The settings of a profile: `merotunki_profile_answer`. The number is 0, or 10 where there is no such
/// profile; then all else is 0.
#[repr(C)]
#[derive(Clone, Copy, Debug, Default, PartialEq)]
#[allow(missing_docs)]
pub struct ProfileAnswer {
    pub number: u64,
    pub limit: u64,
    pub credit: u64,
    pub tolerance: f64,
    pub absolute: f64,
    pub floor: f64,
}

/// The number of the layout of [`Answer`], [`Part`], [`Choice`] and [`ProfileAnswer`] that this crate is
/// written for. The library's own is [`layout`]; it rises whenever one of them changes.
pub const LAYOUT: u64 = 3;

const _: () = assert!(size_of::<Part>() == 16 && size_of::<Choice>() == 40);
const _: () = assert!(size_of::<ProfileAnswer>() == 48);
const _: () = assert!(size_of::<usize>() == 8, "the library is for 64-bit machines");

// A slice is a pointer and a length, one after the other. An answer is written where the first argument
// points, and that pointer is handed back; a part comes back by value.
#[allow(missing_docs)]
unsafe extern "C" {
    pub fn merotunki_svd(
        answer: *mut Answer,
        matrix: *mut f64,
        matrix_length: usize,
        rows: usize,
        columns: usize,
        limit: usize,
        credit: usize,
        tolerance: f64,
        absolute: f64,
        floor: f64,
    ) -> *mut Answer;

    pub fn merotunki_full_svd(
        answer: *mut Answer,
        matrix: *mut f64,
        matrix_length: usize,
        u: *mut f64,
        u_length: usize,
        v: *mut f64,
        v_length: usize,
        rows: usize,
        columns: usize,
        limit: usize,
        credit: usize,
        tolerance: f64,
        absolute: f64,
        floor: f64,
    ) -> *mut Answer;

    pub fn merotunki_ordered_svd(
        answer: *mut Answer,
        matrix: *mut f64,
        matrix_length: usize,
        u: *mut f64,
        u_length: usize,
        v: *mut f64,
        v_length: usize,
        values: *mut f64,
        values_length: usize,
        rows: usize,
        columns: usize,
        limit: usize,
        credit: usize,
        tolerance: f64,
        absolute: f64,
        floor: f64,
    ) -> *mut Answer;

    pub fn merotunki_profile_svd(
        answer: *mut Answer,
        matrix: *mut f64,
        matrix_length: usize,
        rows: usize,
        columns: usize,
        profile: usize,
    ) -> *mut Answer;

    pub fn merotunki_profile_full_svd(
        answer: *mut Answer,
        matrix: *mut f64,
        matrix_length: usize,
        u: *mut f64,
        u_length: usize,
        v: *mut f64,
        v_length: usize,
        rows: usize,
        columns: usize,
        profile: usize,
    ) -> *mut Answer;

    pub fn merotunki_profile_ordered_svd(
        answer: *mut Answer,
        matrix: *mut f64,
        matrix_length: usize,
        u: *mut f64,
        u_length: usize,
        v: *mut f64,
        v_length: usize,
        values: *mut f64,
        values_length: usize,
        rows: usize,
        columns: usize,
        profile: usize,
    ) -> *mut Answer;

    pub fn merotunki_profile(answer: *mut ProfileAnswer, profile: usize) -> *mut ProfileAnswer;

    pub fn merotunki_identity(a: *mut f64, a_length: usize, n: usize) -> u64;

    pub fn merotunki_row(
        u: *const f64,
        u_length: usize,
        v: *const f64,
        v_length: usize,
        rows: usize,
        columns: usize,
        side: usize,
        row: usize,
    ) -> Part;

    pub fn merotunki_square_root(x: f64) -> f64;

    pub fn merotunki_defaults(choice: *mut Choice) -> *mut Choice;

    pub fn merotunki_layout() -> u64;
}

// The library asks for good pointers that do not overlap and checks all else itself. Rust's slices are
// good for their lengths, and two that are borrowed at once, one of them mutably, never overlap. What it
// writes fits where its layout is this crate's, so whatever lends it a struct asks for that first. A
// part, which comes back by value, is asked for only after a split.

/// The number of the layout in the library that was linked: `merotunki_layout`. It is [`LAYOUT`], or the
/// calls here panic.
pub fn layout() -> u64 {
    // SAFETY: nothing in, a number out.
    unsafe { merotunki_layout() }
}

fn expect_layout() {
    let found = layout();
    assert!(
        found == LAYOUT,
        "the library that was linked lays its structs out otherwise (layout {found}, this crate is for \
         {LAYOUT}): link the archive that came with this crate"
    );
}

// The answer of a call that is lent these slices and told these numbers.
macro_rules! answered {
    ($call:ident, [$($slice:ident),*], $($told:expr),*) => {{
        expect_layout();
        let mut a = Answer::default();
        // SAFETY: as above.
        unsafe { $call(&mut a, $($slice.as_mut_ptr(), $slice.len(),)* $($told),*) };
        a
    }};
}

// The answer of one that is told sizes and settings.
macro_rules! with_settings {
    ($call:ident, $slices:tt, $rows:ident, $columns:ident, $c:ident) => {{
        let (limit, credit) = ($c.limit as usize, $c.credit as usize);
        let (tolerance, absolute, floor) = ($c.tolerance, $c.absolute, $c.floor);
        answered!($call, $slices, $rows, $columns, limit, credit, tolerance, absolute, floor)
    }};
}

/// `merotunki_svd` on a slice.
pub fn svd(m: &mut [f64], rows: usize, columns: usize, c: Choice) -> Answer {
    with_settings!(merotunki_svd, [m], rows, columns, c)
}

/// `merotunki_full_svd` on three slices.
pub fn full_svd(
    m: &mut [f64],
    (u, v): (&mut [f64], &mut [f64]),
    rows: usize,
    columns: usize,
    c: Choice,
) -> Answer {
    with_settings!(merotunki_full_svd, [m, u, v], rows, columns, c)
}

/// `merotunki_ordered_svd` on four slices.
pub fn ordered_svd(
    m: &mut [f64],
    (u, v): (&mut [f64], &mut [f64]),
    values: &mut [f64],
    rows: usize,
    columns: usize,
    c: Choice,
) -> Answer {
    with_settings!(merotunki_ordered_svd, [m, u, v, values], rows, columns, c)
}

/// `merotunki_profile_svd` on a slice.
pub fn profile_svd(m: &mut [f64], rows: usize, columns: usize, profile: usize) -> Answer {
    answered!(merotunki_profile_svd, [m], rows, columns, profile)
}

/// `merotunki_profile_full_svd` on three slices.
pub fn profile_full_svd(
    m: &mut [f64],
    (u, v): (&mut [f64], &mut [f64]),
    rows: usize,
    columns: usize,
    profile: usize,
) -> Answer {
    answered!(merotunki_profile_full_svd, [m, u, v], rows, columns, profile)
}

/// `merotunki_profile_ordered_svd` on four slices.
pub fn profile_ordered_svd(
    m: &mut [f64],
    (u, v): (&mut [f64], &mut [f64]),
    values: &mut [f64],
    rows: usize,
    columns: usize,
    profile: usize,
) -> Answer {
    answered!(merotunki_profile_ordered_svd, [m, u, v, values], rows, columns, profile)
}

/// `merotunki_profile`.
pub fn profile(profile: usize) -> ProfileAnswer {
    expect_layout();
    let mut told = ProfileAnswer::default();
    // SAFETY: as above.
    unsafe { merotunki_profile(&mut told, profile) };
    told
}

pub(crate) fn identity(a: &mut [f64], n: usize) -> u64 {
    // SAFETY: as above.
    unsafe { merotunki_identity(a.as_mut_ptr(), a.len(), n) }
}

pub(crate) fn row(
    u: &[f64],
    v: &[f64],
    rows: usize,
    columns: usize,
    side: usize,
    row: usize,
) -> Part {
    // SAFETY: as above; U and V are not even read.
    unsafe { merotunki_row(u.as_ptr(), u.len(), v.as_ptr(), v.len(), rows, columns, side, row) }
}

pub(crate) fn square_root(x: f64) -> f64 {
    // SAFETY: a number in, a number out.
    unsafe { merotunki_square_root(x) }
}

pub(crate) fn defaults() -> Choice {
    expect_layout();
    let mut c = Choice::default();
    // SAFETY: as above.
    unsafe { merotunki_defaults(&mut c) };
    c
}
