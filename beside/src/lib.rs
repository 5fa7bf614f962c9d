//! The SVD module of lignum-vitae/spindalis, made runnable: the modules under `reduction` are the
//! original's own files, changed as prepare.rs says and nowhere else (`CHANGES` is the list).

/// The list of the report's words is the bindings' own, read where it stands: their crate itself
/// cannot be built without the proved library. What the words say is computed here from the original.
#[path = "../../bindings/rust/src/answer.rs"]
pub mod answer;
pub mod by_number;
pub mod by_profile;
pub mod cases;
pub mod kinds;
pub mod limits;
pub mod order;
pub mod pairs;
pub mod profiles;
pub mod quiet;
pub mod readings;
mod record;
pub mod reference;
pub mod refusals;
pub mod rotations;
pub mod run;
pub mod strongest;
pub mod survey;
pub mod tables;
pub mod text;
pub mod texts;
pub mod vectors;

/// The original, under the paths by which its files name each other.
#[rustfmt::skip]
#[allow(dead_code, unused_imports, clippy::all)]
pub mod reduction {
    pub mod matrix {
        pub mod francis {
            pub mod constants { include!(concat!(env!("OUT_DIR"), "/francis/constants.rs")); }
            pub mod givens { include!(concat!(env!("OUT_DIR"), "/francis/givens.rs")); }
            pub mod primitives { include!(concat!(env!("OUT_DIR"), "/francis/primitives.rs")); }
        }
        pub mod svd {
            pub mod bidiagonalization { include!(concat!(env!("OUT_DIR"), "/svd/bidiagonalization.rs")); }
            pub mod bulge_chasing { include!(concat!(env!("OUT_DIR"), "/svd/bulge_chasing.rs")); }
            pub mod interface { include!(concat!(env!("OUT_DIR"), "/svd/interface.rs")); }
            pub mod primitives { include!(concat!(env!("OUT_DIR"), "/svd/primitives.rs")); }
            pub mod verify { include!(concat!(env!("OUT_DIR"), "/svd/verify.rs")); }
        }
    }
}

pub use answer::Answer as Report;
use reduction::matrix::francis::constants;
use reduction::matrix::svd::interface::{full_svd_decomposition, svd_decomposition};

/// Every line in which the built copies differ from the original.
pub const CHANGES: &str = include_str!(concat!(env!("OUT_DIR"), "/changes.txt"));

#[derive(Clone, Copy, Debug, PartialEq)]
pub struct Settings {
    pub limit: usize,
    pub credit: usize,
    pub tolerance: f64,
    pub absolute: f64,
    pub floor: f64,
}

impl Settings {
    /// The numbers of francis/constants.rs; the original's svd/constants.rs is missing.
    pub const DEFAULT: Settings = Settings {
        limit: constants::DEFAULT_MAX_ITERS,
        credit: constants::MAX_ITERS >> 1,
        tolerance: constants::DEFAULT_TOLERANCE,
        absolute: constants::DEFAULT_ABSOLUTE,
        floor: constants::EPSILON,
    };
    /// The same with the floor at the smallest normal number, 2^-1022.
    pub const LOW_FLOOR: Settings = Settings {
        floor: f64::MIN_POSITIVE,
        ..Settings::DEFAULT
    };
}

/// What is recorded of a walk besides its report.
#[derive(Clone, Copy, Debug, Default, PartialEq, Eq)]
pub struct Walked {
    /// How many of the rotations are of (0, b), which take no root.
    pub zeros: u64,
    /// The range at each sweep, all of them added up.
    pub ranges: u64,
    /// The range at the last sweep, 0 where there was none.
    pub last: u64,
}

/// The plain call of the original, or with U and V the accumulating one, in place.
pub fn run(
    rows: usize,
    cols: usize,
    matrix: &mut [f64],
    uv: Option<(&mut [f64], &mut [f64])>,
    settings: &Settings,
) -> Report {
    walked(rows, cols, matrix, uv, settings).0
}

/// The same, and what else is recorded of its walk.
pub fn walked(
    rows: usize,
    cols: usize,
    matrix: &mut [f64],
    uv: Option<(&mut [f64], &mut [f64])>,
    settings: &Settings,
) -> (Report, Walked) {
    assert!(rows > 0 && cols > 0, "rows and columns from 1");
    assert_eq!(matrix.len(), rows * cols, "length of the matrix");
    let &Settings {
        limit,
        credit,
        tolerance,
        absolute,
        floor,
    } = settings;
    let card = rows.min(cols);
    let mut p = vec![0f64; rows.max(cols)];
    let mut w = vec![0f64; rows.max(cols)];

    record::begin(credit, floor);
    match uv {
        None => svd_decomposition(
            matrix, &mut p, &mut w, rows, cols, card, cols, limit, tolerance, absolute,
        ),
        Some((u, v)) => {
            assert_eq!(u.len(), rows * rows, "length of U");
            assert_eq!(v.len(), cols * cols, "length of V");
            full_svd_decomposition(
                matrix, u, v, &mut p, &mut w, rows, cols, card, cols, limit, tolerance, absolute,
            );
        }
    }
    let record = record::end();
    assert_eq!(
        record.left.is_none(),
        card == 1,
        "a walk exactly when there is more than one value"
    );
    let range = record.left.unwrap_or(1);
    let report = Report {
        number: 0,
        row: 0,
        column: 0,
        bad: 0,
        word: quiet::word(rows, cols, matrix, range),
        passes: record.passes,
        sweeps: record.sweeps,
        drops: record.drops,
        range: range as u64,
        rotations: record.rotations,
    };
    let walked = Walked {
        zeros: record.zeros,
        ranges: record.ranges,
        last: record.last,
    };
    (report, walked)
}
