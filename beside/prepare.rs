//! What has to be changed in the original before it runs here: two constants that become settings
//! of a run, counters that record the walk and its rotations, and what leans on files that are missing.
//! Every change names the whole lines that it expects; a source that reads otherwise is refused.

/// One change of whole lines.
pub enum Change {
    /// Lines that stand so many times in the file, and the lines that take their place.
    Replace {
        times: usize,
        text: &'static str,
        by: &'static str,
    },
    /// The lines from `from` up to, but without, `upto`; each stands once, and the fingerprint is
    /// that of the text between them.
    Cut {
        from: &'static str,
        upto: &'static str,
        fingerprint: u64,
    },
}

/// A file of the original with all its changes.
pub struct File {
    pub path: &'static str,
    pub changes: &'static [Change],
}

const PASS: Change = Change::Replace {
    times: 2,
    text: "        curriter += 1;",
    by: "        curriter += 1;\n        crate::record::pass();",
};

/// The files that are built, in the order of the list of changes.
pub const FILES: &[File] = &[
    File {
        path: "francis/constants.rs",
        changes: &[],
    },
    File {
        path: "francis/givens.rs",
        changes: &[Change::Replace {
            times: 1,
            text: "pub fn implicit_givens_rotation(a: f64, b: f64) -> (f64, f64, f64) {",
            by: "pub fn implicit_givens_rotation(a: f64, b: f64) -> (f64, f64, f64) {
    crate::record::rotation(a);",
        }],
    },
    File {
        path: "francis/primitives.rs",
        changes: &[Change::Replace {
            times: 1,
            text: "    if max_element.abs() < EPSILON {",
            by: "    if max_element.abs() < crate::record::floor() {",
        }],
    },
    File {
        path: "svd/primitives.rs",
        changes: &[
            Change::Replace {
                times: 1,
                text: "use crate::reduction::matrix::svd::constants::MAX_ITERS;",
                by: "",
            },
            Change::Replace {
                times: 1,
                text: "    *curriter = curriter.saturating_sub(MAX_ITERS >> 1);",
                by: "    *curriter = curriter.saturating_sub(crate::record::credit());\n    crate::record::drop();",
            },
        ],
    },
    File {
        path: "svd/bidiagonalization.rs",
        changes: &[],
    },
    File {
        path: "svd/bulge_chasing.rs",
        changes: &[
            PASS,
            Change::Replace {
                times: 1,
                text: "            ugivens_iteration(b, inter, stride, tl, bl);
        }
    }
}",
                by: "            crate::record::sweep(range);
            ugivens_iteration(b, inter, stride, tl, bl);
        }
    }
    crate::record::left(range);
}",
            },
            Change::Replace {
                times: 1,
                text: "            lgivens_iteration(b, inter, stride, tl, bl);
        }
    }
}",
                by: "            crate::record::sweep(range);
            lgivens_iteration(b, inter, stride, tl, bl);
        }
    }
    crate::record::left(range);
}",
            },
        ],
    },
    File {
        path: "svd/verify.rs",
        changes: &[
            PASS,
            Change::Replace {
                times: 1,
                text:
                    "            full_ugivens_iteration(b, u, v, inter, rows, cols, stride, tl, bl);
        }
    }
}",
                by: "            crate::record::sweep(range);
            full_ugivens_iteration(b, u, v, inter, rows, cols, stride, tl, bl);
        }
    }
    crate::record::left(range);
}",
            },
            Change::Replace {
                times: 1,
                text:
                    "            full_lgivens_iteration(b, u, v, inter, rows, cols, stride, tl, bl);
        }
    }
}",
                by: "            crate::record::sweep(range);
            full_lgivens_iteration(b, u, v, inter, rows, cols, stride, tl, bl);
        }
    }
    crate::record::left(range);
}",
            },
        ],
    },
    File {
        path: "svd/interface.rs",
        changes: &[
            Change::Replace {
                times: 1,
                text: "use crate::reduction::matrix::svd::primitives::identity_flat;",
                by: "",
            },
            Change::Replace {
                times: 1,
                text: "use crate::reduction::matrix::svd::constants::{
    DEFAULT_ABSOLUTE, DEFAULT_MAX_ITERS, DEFAULT_TOLERANCE,
};
use crate::solvers::SolverError;
use jedvek::Matrix2D;",
                by: "",
            },
            Change::Cut {
                from: "/// auto_svd",
                upto: "pub fn full_svd_decomposition(",
                fingerprint: 0x9066_E3B5_2080_AB64,
            },
        ],
    },
];

/// The changed copy of a file, and the list of its changed lines.
pub struct Prepared {
    pub copy: String,
    pub listing: String,
}

/// Lines of the original, from `start` and so many, and what stands there in the copy.
struct Edit {
    start: usize,
    count: usize,
    by: Vec<&'static str>,
}

/// The copy of `source` with every change of `file` made, or which text was expected and where.
pub fn prepare(file: &File, source: &str) -> Result<Prepared, String> {
    if source.contains("mul_add") {
        return Err(format!("{}: expected no `mul_add`", file.path));
    }
    let lines: Vec<&str> = source.split('\n').collect();
    let mut edits = Vec::new();
    for change in file.changes {
        edits.extend(edits_of(file.path, &lines, change)?);
    }
    edits.sort_by_key(|edit| edit.start);

    let mut copy: Vec<&str> = Vec::new();
    let mut listing = String::new();
    let mut next = 0;
    for edit in &edits {
        if edit.start < next {
            return Err(format!(
                "{}: two changes meet in line {}",
                file.path,
                edit.start + 1
            ));
        }
        copy.extend(&lines[next..edit.start]);
        copy.extend(&edit.by);
        next = edit.start + edit.count;
        list(&mut listing, file.path, edit, &lines[edit.start..next]);
    }
    copy.extend(&lines[next..]);
    Ok(Prepared {
        copy: copy.join("\n"),
        listing,
    })
}

/// Where a change falls in the lines of its file.
fn edits_of(path: &str, lines: &[&str], change: &Change) -> Result<Vec<Edit>, String> {
    match *change {
        Change::Replace { times, text, by } => Ok(places(path, lines, text, times)?
            .into_iter()
            .map(|start| Edit {
                start,
                count: text.lines().count(),
                by: by.lines().collect(),
            })
            .collect()),
        Change::Cut {
            from,
            upto,
            fingerprint,
        } => {
            let start = places(path, lines, from, 1)?[0];
            let end = places(path, lines, upto, 1)?[0];
            if end < start {
                return Err(format!("{path}: expected `{from}` before `{upto}`"));
            }
            let found = fingerprint_of(&lines[start..end].join("\n"));
            if found != fingerprint {
                return Err(format!(
                    "{path}: expected, from `{from}` to before `{upto}`, the text with fingerprint \
                     {fingerprint:016X}, found {found:016X}"
                ));
            }
            Ok(vec![Edit {
                start,
                count: end - start,
                by: Vec::new(),
            }])
        }
    }
}

/// The lines where `text` begins, which must be so many.
fn places(path: &str, lines: &[&str], text: &str, times: usize) -> Result<Vec<usize>, String> {
    let wanted: Vec<&str> = text.lines().collect();
    let found: Vec<usize> = (0..lines.len())
        .filter(|&start| lines[start..].starts_with(&wanted))
        .collect();
    if found.len() == times {
        Ok(found)
    } else {
        Err(format!(
            "{path}: expected {times} time(s), found {} time(s), the line(s)\n{text}",
            found.len()
        ))
    }
}

/// The lines of an edit that differ: `-` with its number as it was, `+` as it is in the copy.
fn list(listing: &mut String, path: &str, edit: &Edit, old: &[&str]) {
    let mut next = 0;
    let mut tell = |at: usize, sign: char, line: &str| {
        let told = format!("{path}:{} {sign} {line}", edit.start + at + 1);
        listing.push_str(told.trim_end());
        listing.push('\n');
    };
    for line in &edit.by {
        match old[next..].iter().position(|kept| kept == line) {
            Some(gone) => {
                (next..next + gone).for_each(|at| tell(at, '-', old[at]));
                next += gone + 1;
            }
            None => {
                // A line that is altered where it stands is told before what takes its place.
                if next < old.len() && !edit.by.contains(&old[next]) {
                    tell(next, '-', old[next]);
                    next += 1;
                }
                tell(next.saturating_sub(1), '+', line);
            }
        }
    }
    (next..old.len()).for_each(|at| tell(at, '-', old[at]));
}

/// FNV-1a of 64 bits.
fn fingerprint_of(text: &str) -> u64 {
    text.bytes().fold(0xCBF2_9CE4_8422_2325, |hash, byte| {
        (hash ^ u64::from(byte)).wrapping_mul(0x0000_0100_0000_01B3)
    })
}
