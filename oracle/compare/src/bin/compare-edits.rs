//! Puts the same edits to the port and to a plain second reading of document 02 (c): runs of edits, each on the sheet that the one before
//! left.
//!
//!     compare-edits --seed S --count N [--threads T]
//!
//! N counts edits. Prints how many were made and refused, and the differences; exits 1 if there is any.

use cases::corrections::{Edit, STEPS, sheet, step};
use compare::edits::{api, buffer_of, function, library, oracle};
use compare::options;
use std::sync::atomic::{AtomicU64, Ordering};
use std::time::Instant;

/// Differences that are shown in full.
const SHOWN: u64 = 20;

fn main() {
    let cores = std::thread::available_parallelism().map_or(1, |cores| cores.get() as u64);
    let ([seed, count, threads], _) =
        options::read("compare-edits", [("--seed", 1), ("--count", 100_000), ("--threads", cores)]);
    let next = AtomicU64::new(0);
    let [put, withdrawn, differences] = [const { AtomicU64::new(0) }; 3];
    let refused = [const { AtomicU64::new(0) }; 14];
    let work = || {
        loop {
            let run = next.fetch_add(1, Ordering::Relaxed);
            if run * STEPS >= count {
                return;
            }
            let mut sheet = sheet(seed, run);
            for place in 0..STEPS.min(count - run * STEPS) {
                let step = step(seed, run, place, &sheet);
                let (buffer, used) = buffer_of(&sheet, &step);
                let wanted = oracle(step.edit, &buffer, used, &step.line);
                let number = match (&wanted, step.edit) {
                    (Ok(_), Edit::Put) => &put,
                    (Ok(_), Edit::Withdraw) => &withdrawn,
                    (Err(refusal), _) => &refused[usize::from(refusal.number)],
                };
                number.fetch_add(1, Ordering::Relaxed);
                for (side, what) in [
                    ("function", function(library, step.edit, &buffer, used, &step.line)),
                    ("crate", api(step.edit, &buffer, used, &step.line)),
                ] {
                    if let Some(what) = what
                        && differences.fetch_add(1, Ordering::Relaxed) < SHOWN
                    {
                        println!("edit {place} of run {run} of seed {seed}, {side}: {what}");
                        println!("  {:?} {:?}, used {used}", step.edit, String::from_utf8_lossy(&step.line));
                    }
                }
                if let Ok(text) = wanted {
                    sheet = text;
                }
            }
        }
    };
    let start = Instant::now();
    std::thread::scope(|scope| (0..threads.max(1)).for_each(|_| drop(scope.spawn(work))));
    let [put, withdrawn, differences] = [put, withdrawn, differences].map(AtomicU64::into_inner);
    let refused: Vec<String> = [4, 5, 6, 11, 12, 13]
        .iter()
        .map(|&number: &usize| format!("{} with {number}", refused[number].load(Ordering::Relaxed)))
        .collect();
    println!("{put} lines put, {withdrawn} withdrawn, refused {}", refused.join(", "));
    let seconds = start.elapsed().as_secs_f64();
    println!("{count} edits, seed {seed}, {threads} threads, {seconds:.0} s; {differences} differences");
    std::process::exit(i32::from(differences > 0));
}
