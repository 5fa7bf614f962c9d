//! A pair of runs by the library and by the original: each reply of the one held against the other's,
//! and the law of pairs on the replies of both.

use crate::{differs, library};
use beside::kinds::Sizes;
use beside::pairs::{Began, COUNTS, Pair, Seen, counted, drawn};
use beside::run::{Call, Reply};

/// The replies to both runs of a pair, of the accumulating and of the ordered call.
#[derive(Clone, Debug)]
pub struct Replies {
    pub kept: [Reply; 2],
    pub ordered: [Reply; 2],
}

impl Replies {
    pub fn of_library(pair: &Pair) -> Replies {
        let by = |call: Call| [0, 1].map(|run: usize| library(&pair.runs[run], call));
        Replies {
            kept: by(Call::Accumulating),
            ordered: by(Call::Ordered),
        }
    }

    pub fn of_original(pair: &Pair) -> Replies {
        let kept = [0, 1].map(|run: usize| pair.runs[run].reply(Call::Accumulating));
        let ordered = [0, 1].map(|run: usize| pair.runs[run].ordered(&kept[run]));
        Replies { kept, ordered }
    }

    fn calls(&self) -> [(Call, &[Reply; 2]); 2] {
        [
            (Call::Accumulating, &self.kept),
            (Call::Ordered, &self.ordered),
        ]
    }
}

/// What a line says where the law is broken.
const LAW: &str = "law of pairs";

/// All that is wrong, a line each: where the library's replies differ from the original's, and where the
/// replies of either break the law.
pub fn wrong(pair: &Pair, began: &Began, library: &Replies, original: &Replies) -> Vec<String> {
    let mut lines = Vec::new();
    for ((call, got), (_, must)) in library.calls().into_iter().zip(original.calls()) {
        let name = call.name();
        for (run, which) in ["first", "second"].into_iter().enumerate() {
            if let Some(what) = differs(&got[run], &must[run]) {
                lines.push(format!("{name} call, {which} run: {what} differs"));
            }
        }
        for (replies, whose) in [(got, "library"), (must, "original")] {
            if let Some(what) = pair.broken(began, [&replies[0], &replies[1]]) {
                lines.push(format!("{name} call, {LAW}, {whose}: {what}"));
            }
        }
    }
    lines
}

/// Makes the calls of the pair and counts what was met. The error says all that is wrong.
pub fn check(pair: &Pair) -> Result<[u64; COUNTS.len()], String> {
    let (library, original) = (Replies::of_library(pair), Replies::of_original(pair));
    let began = pair.began();
    let lines = wrong(pair, &began, &library, &original);
    if !lines.is_empty() {
        return Err(lines.join("\n"));
    }
    let Replies { kept, ordered } = &library;
    Ok(counted(&Seen {
        pair,
        began: &began,
        kept: [&kept[0], &kept[1]],
        ordered: [&ordered[0], &ordered[1]],
    }))
}

/// A small pair of the seed that is wrong, too, with what is wrong with it; by the law where this one is.
pub fn smaller(seed: u64, wrong: &str) -> Option<(Pair, String)> {
    let sizes = [2, 3, 4, 6].map(Sizes::UpTo).into_iter();
    let mut pairs = sizes.flat_map(|sizes| (0..1000).map(move |number| drawn(seed, number, sizes)));
    pairs.find_map(|pair| {
        let still = check(&pair).err()?;
        (still.contains(LAW) || !wrong.contains(LAW)).then_some((pair, still))
    })
}
