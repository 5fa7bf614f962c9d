//! What a call answers: the one list of the report's words in Rust. The crate in `beside` of the repository, which runs
//! the original, reads this same file, so that both sides are compared word by word and no word is left out.

// The struct, the names of its words and the words one after the other, from one list.
macro_rules! answer {
    ($($(#[$meaning:meta])* $word:ident,)*) => {
        /// What a call answers: `merotunki_answer`. Row, column and bad are 0 but with number 8. The words after them
        /// are 0 in a refusal; with 12 and 13, which come after the run, they are the run's.
        #[repr(C)]
        #[derive(Clone, Copy, Debug, Default, PartialEq, Eq)]
        pub struct Answer {
            $($(#[$meaning])* pub $word: u64,)*
        }

        impl Answer {
            /// The names of the words, in their order.
            pub const NAMES: [&str; [$(stringify!($word)),*].len()] = [$(stringify!($word)),*];

            /// The words, in the same order.
            pub fn words(&self) -> [u64; Self::NAMES.len()] {
                [$(self.$word),*]
            }
        }

        impl From<[u64; Answer::NAMES.len()]> for Answer {
            fn from([$($word),*]: [u64; Answer::NAMES.len()]) -> Self {
                Answer { $($word),* }
            }
        }
    };
}

answer! {
    /// 0 accepted, 1 to 8 and 10 to 13 refused.
    number,
    /// Station of the first reading that is infinite or NaN, row by row, counted from 0.
    row,
    /// Its pass, counted from 0.
    column,
    /// How many such readings the whole table has, the first one too.
    bad,
    /// [`Answer::SETTLED`], [`Answer::STOPPED`] or [`Answer::QUIET`]; 0 where nothing was run.
    word,
    /// Passes of the walk; each is a sweep or a drop.
    passes,
    /// Passes that did work.
    sweeps,
    /// Passes that left a value behind as found.
    drops,
    /// How much of the diagonal is still live: 1 where settled, above 1 where stopped or quiet.
    range,
    /// Rotations computed by the sweeps, each counted once, whatever it turns.
    rotations,
}

impl Answer {
    /// Every coupling was found negligible.
    pub const SETTLED: u64 = 1;
    /// The limit ran out before, and a coupling of the live corner is not 0.
    pub const STOPPED: u64 = 2;
    /// The limit ran out before, and every coupling of the live corner is +0 or -0.
    pub const QUIET: u64 = 3;
}
