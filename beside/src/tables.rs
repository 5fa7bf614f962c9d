//! Drawn tables like a survey's, by kind and shape, always the same ones: `rates` counts how they end,
//! `profiles` does so under each profile, and the `battery` of speed times them.

/// Splitmix64, as a number from 0 up to, but without, 1.
pub struct Draw(pub u64);

impl Draw {
    pub fn part(&mut self) -> f64 {
        self.0 = self.0.wrapping_add(0x9E37_79B9_7F4A_7C15);
        let z = (self.0 ^ (self.0 >> 30)).wrapping_mul(0xBF58_476D_1CE4_E5B9);
        let z = (z ^ (z >> 27)).wrapping_mul(0x94D0_49BB_1331_11EB);
        ((z ^ (z >> 31)) >> 11) as f64 / (1u64 << 53) as f64
    }

    fn even(&mut self) -> f64 {
        2.0 * self.part() - 1.0
    }
}

/// A profile of 0.3 to 4 m/s times a drift of 5 %, with noise, in steps of 0.01 where `steps`.
fn survey(draw: &mut Draw, rows: usize, cols: usize, noise: f64, steps: bool) -> Vec<f64> {
    let profile: Vec<f64> = (0..rows).map(|_| 0.3 + 3.7 * draw.part()).collect();
    let drift: Vec<f64> = (0..cols).map(|_| 1.0 + 0.05 * draw.even()).collect();
    let mut reading = |at: usize| {
        let value = profile[at / cols] * drift[at % cols] * (1.0 + noise * draw.even());
        if steps {
            (value * 100.0).round() / 100.0
        } else {
            value
        }
    };
    (0..rows * cols).map(&mut reading).collect()
}

/// A survey whose first pass is all 0, with that pass moved to `place`.
fn pass_of_zeros(draw: &mut Draw, rows: usize, cols: usize, place: usize) -> Vec<f64> {
    let mut table = survey(draw, rows, cols, 0.03, true);
    for row in table.chunks_mut(cols) {
        row[0] = 0.0;
        row[..=place].rotate_left(1);
    }
    table
}

/// A survey whose first station is all 0, with that station moved to `place`.
fn station_of_zeros(draw: &mut Draw, rows: usize, cols: usize, place: usize) -> Vec<f64> {
    let mut table = survey(draw, rows, cols, 0.03, true);
    table[..cols].fill(0.0);
    table[..(place + 1) * cols].rotate_left(cols);
    table
}

/// A survey of a calm roadway: all read 0 but one station, any of them, or but one pass.
fn all_but_one(draw: &mut Draw, rows: usize, cols: usize, station: bool) -> Vec<f64> {
    let mut table = survey(draw, rows, cols, 0.03, true);
    let any = |draw: &mut Draw, many: usize| (draw.part() * many as f64) as usize;
    let live = any(draw, if station { rows } else { cols });
    for (at, reading) in table.iter_mut().enumerate() {
        if live != if station { at / cols } else { at % cols } {
            *reading = 0.0;
        }
    }
    table
}

pub type Shape = (usize, usize);

/// As surveys are: more stations than passes.
pub const FEW_PASSES: [Shape; 7] = [
    (8, 5),
    (12, 6),
    (20, 5),
    (20, 10),
    (30, 4),
    (48, 3),
    (48, 6),
];

/// The readings of a table with so many columns, and mostly so many rows.
pub type Table = fn(&mut Draw, usize, usize) -> Vec<f64>;
pub type Kind = (&'static str, Table);

pub const NOISE_3: Kind = ("survey, noise 3 %, read to 0.01", |draw, rows, cols| {
    survey(draw, rows, cols, 0.03, true)
});
pub const NOISE_HALF: Kind = ("survey, noise 0.5 %, read to 0.01", |draw, rows, cols| {
    survey(draw, rows, cols, 0.005, true)
});
pub const NOISE_TENTH: Kind = ("survey, noise 0.1 %, not rounded", |draw, rows, cols| {
    survey(draw, rows, cols, 1e-3, false)
});
pub const NOISE_MILLIONTH: Kind = ("survey, noise 1e-6, not rounded", |draw, rows, cols| {
    survey(draw, rows, cols, 1e-6, false)
});
pub const FIRST_PASS: Kind = (
    "survey, noise 3 %, the first pass all 0",
    |draw, rows, cols| pass_of_zeros(draw, rows, cols, 0),
);
pub const CALM: Kind = ("all readings 0", |_, rows, cols| vec![0.0; rows * cols]);
pub const TWO_STATIONS: Kind = (
    "all readings 0, of two stations alone (2 x passes)",
    |_, _, cols| vec![0.0; 2 * cols],
);

pub const KINDS: [Kind; 19] = [
    ("any readings, -1 to 1", |draw, rows, cols| {
        (0..rows * cols).map(|_| draw.even()).collect()
    }),
    NOISE_3,
    NOISE_HALF,
    ("survey, no noise, read to 0.01", |draw, rows, cols| {
        survey(draw, rows, cols, 0.0, true)
    }),
    NOISE_TENTH,
    NOISE_MILLIONTH,
    (
        "survey, no noise, not rounded (rank 1)",
        |draw, rows, cols| survey(draw, rows, cols, 0.0, false),
    ),
    (
        "survey, noise 3 %, a third of the stations dead (0)",
        |draw, rows, cols| {
            let mut table = survey(draw, rows, cols, 0.03, true);
            for row in table.chunks_mut(cols).skip(1).step_by(3) {
                row.fill(0.0);
            }
            table
        },
    ),
    FIRST_PASS,
    (
        "the same with that pass in the middle",
        |draw, rows, cols| pass_of_zeros(draw, rows, cols, cols / 2),
    ),
    (
        "the same with that pass moved to the end",
        |draw, rows, cols| pass_of_zeros(draw, rows, cols, cols - 1),
    ),
    (
        "survey, noise 3 %, the last two passes all 0",
        |draw, rows, cols| {
            let mut table = survey(draw, rows, cols, 0.03, true);
            for row in table.chunks_mut(cols) {
                row[cols - 2..].fill(0.0);
            }
            table
        },
    ),
    (
        "survey, noise 3 %, the first station all 0",
        |draw, rows, cols| station_of_zeros(draw, rows, cols, 0),
    ),
    (
        "the same with that station moved to the end",
        |draw, rows, cols| station_of_zeros(draw, rows, cols, rows - 1),
    ),
    ("all readings equal", |draw, rows, cols| {
        vec![(1.0 + 300.0 * draw.part()).round() / 100.0; rows * cols]
    }),
    CALM,
    TWO_STATIONS,
    (
        "survey, noise 3 %, read to 0.01, all but one station 0",
        |draw, rows, cols| all_but_one(draw, rows, cols, true),
    ),
    (
        "survey, noise 3 %, read to 0.01, all but one pass 0",
        |draw, rows, cols| all_but_one(draw, rows, cols, false),
    ),
];

/// The drawn tables of a kind and shape.
pub fn drawn(table: Table, (rows, cols): Shape, draws: usize) -> impl Iterator<Item = Vec<f64>> {
    let mut draw = Draw((rows * 100 + cols) as u64);
    (0..draws).map(move |_| table(&mut draw, rows, cols))
}
