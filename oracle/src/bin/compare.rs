//! Compares the exported calls with the original and with documents 01 and 02. Usage: compare [seed] [times]

use oracle::exports::{ANSWERS, NUMBERS};
use oracle::parts::{balance, batch, cases, damage, drift, exhaustive, held, histories, kiosk, ledger, limits, lines, link, repair, restore, room, sums, uneven, zeros, Compared, Effort};
use std::process::ExitCode;
use std::sync::atomic::{AtomicUsize, Ordering};
use std::thread;
use std::time::Instant;

const PARTS: &[(&str, fn(Effort) -> Compared)] = &[
    ("worked cases of document 01", cases::worked),
    ("fresh blocks at every N", limits::fresh),
    ("inboxes: begin and missing", limits::inboxes),
    ("lines: read", lines::read),
    ("lines: received", lines::received),
    ("lines: several checks failing at once", lines::several),
    ("exhaustive: four calls, two versions, three keys", exhaustive::all),
    ("random histories, room short", histories::small),
    ("random histories, large trees", histories::large),
    ("exact room", room::exact),
    ("sums that fit and that do not", sums::around_the_limit),
    ("zero minutes", zeros::all),
    ("batches of edits", batch::all),
    ("restores from sorted listings", restore::all),
    ("trees that lean as far as calls make them", balance::all),
    ("uneven trees: edits", uneven::edits),
    ("uneven trees: listings and depth", uneven::depths),
    ("same entries or not", drift::all),
    ("damaged and cut blocks and inboxes", damage::refusals),
    ("links with loss, repeats and delay", link::sent),
    ("lost lines: asked for and sent again", repair::all),
    ("minutes held: bounds and damaged sums", held::all),
    ("ledgers", ledger::all),
    ("kiosks beside the tree engine", kiosk::all),
];

/// What a main thread usually has: the original recurses as deep as a chain of nodes.
const STACK_BYTES: usize = 8 << 20;

/// Tells how a part ended: what it compared and what failed.
fn tell(name: &str, ended: Compared, seconds: f64) -> (u64, u64) {
    match ended {
        Ok(compared) => {
            println!("{name:50} {compared:9} compared, {seconds:.1} s");
            (compared, 0)
        }
        Err(what) => {
            println!("{name:50} FAILED: {what}");
            (0, 1)
        }
    }
}

/// Runs all parts, as many at a time as the machine has processors; each is told when it ends.
fn compared(effort: Effort) -> (u64, u64) {
    let next = AtomicUsize::new(0);
    let work = || {
        let (mut passed, mut failed) = (0, 0);
        while let Some((name, part)) = PARTS.get(next.fetch_add(1, Ordering::Relaxed)) {
            let start = Instant::now();
            let ended = part(effort);
            let (compared, wrong) = tell(name, ended, start.elapsed().as_secs_f64());
            passed += compared;
            failed += wrong;
        }
        (passed, failed)
    };
    let workers = thread::available_parallelism().map_or(1, |n| n.get());
    thread::scope(|scope| {
        let one = |_| thread::Builder::new().stack_size(STACK_BYTES).spawn_scoped(scope, work).expect("a thread");
        let all: Vec<_> = (0..workers).map(one).collect();
        all.into_iter().map(|one| one.join().expect("a part panicked")).fold((0, 0), |sum, one| (sum.0 + one.0, sum.1 + one.1))
    })
}

fn main() -> ExitCode {
    let mut numbers = std::env::args().skip(1).map(|text| text.parse().expect("seed and times are numbers"));
    let effort = Effort { seed: numbers.next().unwrap_or(1), times: numbers.next().unwrap_or(1) };
    println!("seed {}, {} times", effort.seed, effort.times);
    let (passed, mut failed) = compared(effort);
    let answers = NUMBERS.map(|number| ANSWERS[number].load(Ordering::Relaxed));
    println!("answers by number, 0 to 18: {answers:?}");
    if answers.contains(&0) {
        failed += 1;
        println!("FAILED: a number was never answered");
    }
    println!("{passed} passed, {failed} failed");
    if failed == 0 {
        ExitCode::SUCCESS
    } else {
        ExitCode::FAILURE
    }
}
