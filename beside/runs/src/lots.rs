//! A great many things made one by one, by several threads, up to the first that is wrong. And how the
//! programs that do so read their words and end.

use std::process::ExitCode;
use std::sync::Mutex;
use std::sync::atomic::{AtomicBool, AtomicU64, Ordering::Relaxed};
use std::time::{Duration, Instant};

/// Things are taken in lots of this many.
const LOT: u64 = 1000;

/// What is counted of the things that a thread made, to be joined with what the others counted.
pub trait Counts: Send {
    fn new() -> Self;
    fn join(&mut self, other: &Self);
}

/// Makes the things 0 up to `count` by so many threads, and counts them, or says of the first that is
/// found wrong what is wrong with it. Tells every ten seconds how many are made.
pub fn all<C: Counts>(
    (count, what): (u64, &str),
    threads: u64,
    one: impl Fn(u64, &mut C) -> Result<(), String> + Sync,
) -> Result<C, String> {
    let (next, done, ended) = (AtomicU64::new(0), AtomicU64::new(0), AtomicBool::new(false));
    let wrong = Mutex::new(None::<String>);
    let whole = Mutex::new(C::new());
    let start = Instant::now();
    let work = || {
        let mut counts = C::new();
        loop {
            let first = next.fetch_add(LOT, Relaxed);
            if first >= count || ended.load(Relaxed) {
                break;
            }
            for number in first..count.min(first + LOT) {
                if let Err(text) = one(number, &mut counts) {
                    wrong.lock().unwrap().get_or_insert(text);
                    ended.store(true, Relaxed);
                    break;
                }
            }
            done.fetch_add(LOT.min(count - first), Relaxed);
        }
        whole.lock().unwrap().join(&counts);
    };
    std::thread::scope(|scope| {
        let workers: Vec<_> = (0..threads).map(|_| scope.spawn(work)).collect();
        let mut told = Instant::now();
        while workers.iter().any(|worker| !worker.is_finished()) {
            std::thread::sleep(Duration::from_millis(50));
            if told.elapsed() > Duration::from_secs(10) {
                told = Instant::now();
                let made = done.load(Relaxed);
                let rate = made as f64 / start.elapsed().as_secs_f64();
                eprintln!("{made} of {count} {what}, {rate:.0} a second");
            }
        }
    });
    match wrong.into_inner().unwrap() {
        Some(text) => Err(text),
        None => Ok(whole.into_inner().unwrap()),
    }
}

/// As many as there are cores.
pub fn threads() -> u64 {
    std::thread::available_parallelism().map_or(1, |many| many.get() as u64)
}

/// The number among the words, or the default where there are not so many words.
pub fn number(words: &[String], at: usize, default: u64) -> Result<u64, String> {
    match words.get(at) {
        None => Ok(default),
        Some(word) => word
            .parse()
            .map_err(|_| format!("`{word}` is not a number")),
    }
}

/// A count as it is printed: one that should not be 0.
pub fn met(many: u64) -> String {
    match many {
        0 => "never".into(),
        _ => many.to_string(),
    }
}

/// The program's end: with what is wrong, status 1.
pub fn ended(result: Result<(), String>) -> ExitCode {
    match result {
        Ok(()) => ExitCode::SUCCESS,
        Err(text) => {
            println!("{text}");
            ExitCode::FAILURE
        }
    }
}
