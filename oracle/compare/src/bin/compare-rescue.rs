//! Puts the same sheets to the port and to a plain second reading of document 02 (m).
//!
//!     compare-rescue --seed S --count N [--threads T]
//!
//! Prints the count and the differences; exits 1 if there is any.

use cases::torn;
use compare::options;
use compare::rescue::{Answer, Compared};
use std::sync::atomic::{AtomicU64, Ordering};
use std::time::Instant;

/// Differences that are shown in full.
const SHOWN: u64 = 20;

/// Sheets that a thread takes at one go.
const TAKEN: u64 = 64;

fn main() {
    let cores = std::thread::available_parallelism().map_or(1, |cores| cores.get() as u64);
    let ([seed, count, threads], _) =
        options::read("compare-rescue", [("--seed", 1), ("--count", 100_000), ("--threads", cores)]);
    let next = AtomicU64::new(0);
    let [hold, found, refused, differences] = [const { AtomicU64::new(0) }; 4];
    let work = || {
        loop {
            let from = next.fetch_add(TAKEN, Ordering::Relaxed);
            if from >= count {
                return;
            }
            for place in from..count.min(from + TAKEN) {
                // In memory of its exact size, so that a tool which watches memory sees a byte read past it.
                let compared = Compared::of(&torn::sheet(seed, place).into_boxed_slice());
                let number = match &compared.oracle {
                    Err(_) => &refused,
                    Ok((_, report)) if report.is_empty() => &hold,
                    Ok(_) => &found,
                };
                number.fetch_add(1, Ordering::Relaxed);
                if compared.differs() && differences.fetch_add(1, Ordering::Relaxed) < SHOWN {
                    println!("sheet {place} of seed {seed}, {}, differs", torn::class_of(place).name);
                    println!("  second reading {:?}", shown(&compared.oracle));
                    println!("  function       {:?}", shown(&compared.function));
                    println!("  crate          {:?}", shown(&compared.api));
                }
            }
        }
    };
    let start = Instant::now();
    std::thread::scope(|scope| (0..threads.max(1)).for_each(|_| drop(scope.spawn(work))));
    let [hold, found, refused, differences] = [hold, found, refused, differences].map(AtomicU64::into_inner);
    println!("{hold} sheets without a cut, {found} with cuts, {refused} refused");
    let seconds = start.elapsed().as_secs_f64();
    println!("{count} sheets, seed {seed}, {threads} threads, {seconds:.0} s; {differences} differences");
    std::process::exit(i32::from(differences > 0));
}

fn shown(answer: &Answer) -> Result<(String, &str), &str> {
    match answer {
        Ok((kept, report)) => Ok((String::from_utf8_lossy(kept).into_owned(), report)),
        Err(text) => Err(text),
    }
}
