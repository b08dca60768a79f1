//! The exported call beside the original's own call and the same audit in Rust, in one run. Usage: bench [rounds]

use oracle::call::{Call, Reply};
use oracle::exports;
use oracle::fast;
use oracle::frame::{Frame, INBOX};
use oracle::kiosk;
use oracle::ledger::{self, Op};
use oracle::original::{self, Map};
use oracle::plain;
use oracle::rules::{Supply, Tree};
use oracle::random::Random;
use oracle::sizes;
use oracle::table::Table;
use oracle::wbtree::map::look;
use std::hint::black_box;
use std::time::Instant;

/// How many blocks of a kind take turns.
const BLOCKS: u64 = 8;

/// A call, and the block that it starts from.
struct Scene {
    name: &'static str,
    start: Vec<u32>,
    inbox: Vec<u32>,
    call: Call,
}

/// Keys of a version in the order in which they are put.
fn keys(count: u32, step: u32, seed: u64) -> Vec<u32> {
    let mut keys: Vec<u32> = (0..count).map(|i| step * i).collect();
    Random::new(count as u64 + (seed << 32)).shuffle(&mut keys);
    keys
}

fn edited(table: &mut Table, call: Call) {
    let reply = plain::answer(table, &mut [0; INBOX], &call);
    assert_eq!(reply.number, 0, "{call:?}");
}

fn put(table: &mut Table, version: u32, keys: &[u32], value: impl Fn(u32) -> u32) {
    for &key in keys {
        edited(table, Call::Insert { dest: version, source: version, key, value: value(key) });
    }
}

/// Version 0 with so many entries, at keys 0, 2, 4 and on.
fn entries(n: usize, count: u32, seed: u64) -> Table {
    let mut table = Table::fresh(n);
    put(&mut table, 0, &keys(count, 2, seed), |key| key + 1);
    table
}

/// Version 0 with 2,000 entries, and version 1 with some of them put again.
fn again(n: usize, keys: &[u32], value: impl Fn(u32) -> u32, seed: u64) -> Table {
    let mut table = entries(n, 2000, seed);
    edited(&mut table, Call::Copy { dest: 1, source: 0 });
    put(&mut table, 1, keys, value);
    table
}

/// Version 1 is version 0 with ten neighbouring values changed: at N = 2,048 there is no room for changes far apart.
fn changed(n: usize, seed: u64) -> Table {
    again(n, &keys_from(1000, 2), |_| 1, seed)
}

/// Ten keys.
fn keys_from(first: u32, step: u32) -> Vec<u32> {
    (0..10).map(|i| first + step * i).collect()
}

/// Version 0 with an entry in every node, from the middle: no call could fill the block so.
fn full(n: usize) -> Table {
    fn middle(supply: &mut Supply, from: u32, to: u32) -> Tree {
        if from == to {
            return None;
        }
        let key = from + (to - from) / 2;
        let (left, right) = (middle(supply, from, key), middle(supply, key + 1, to));
        supply.make(key, key, left, right)
    }
    let mut table = Table::fresh(n);
    table.versions[0] = middle(&mut Supply::new(table.free()), 0, n as u32);
    table
}

/// Version 1 with keys 0, step, 2 step and on, of which the even ones are also in version 0.
fn beside(n: usize, count: u32, other: u32, step: u32, seed: u64) -> Table {
    let mut table = entries(n, count, seed);
    put(&mut table, 1, &keys(other, step, seed), |key| key + 1);
    table
}

/// Two versions of the same keys, put in different orders.
fn common(n: usize, count: u32, seed: u64, value: impl Fn(u32) -> u32) -> Table {
    let mut table = Table::fresh(n);
    let mut keys = keys(count, 2, seed);
    put(&mut table, 0, &keys, &value);
    Random::new(7 + seed).shuffle(&mut keys);
    put(&mut table, 1, &keys, &value);
    table
}

/// A hundred edits over a version's keys in no order: new keys, known ones, and removes.
fn hundred(count: u32, seed: u64) -> Call {
    let edit = |i: u32| match (i % 4, 2 * i * (count / 100)) {
        (0 | 1, key) => [1, key + 1, 1],
        (2, key) => [1, key, 1],
        (_, key) => [2, key, 0],
    };
    let mut edits: Vec<[u32; 3]> = (0..100).map(edit).collect();
    Random::new(seed).shuffle(&mut edits);
    Call::Batch { dest: 0, source: 0, edits: edits.concat() }
}

/// Every call once, on blocks that differ with the seed in where their keys stand.
fn scenes(n: usize, seed: u64) -> Vec<Scene> {
    let scene = |name, table: &Table, call| {
        let mut inbox = vec![0; INBOX];
        (inbox[0], inbox[1]) = (7, 100);
        Scene { name, start: table.words(), inbox, call }
    };
    let (few, many, pair) = (entries(n, 100, seed), entries(n, 2000, seed), changed(n, seed));
    let two = beside(n, 100, 100, 3, seed);
    let union = Call::Union { dest: 2, left: 0, right: 1, rule: 4 };
    let difference = |cancel| Call::Difference { dest: 2, left: 0, right: 1, rule: 1, cancel };
    let insert = Call::Insert { dest: 0, source: 0, key: 77, value: 1 };
    let remove = Call::Remove { dest: 0, source: 0, key: 76 };
    let lookup = Call::Lookup { version: 0, key: 76 };
    let between = Call::HeldBetween { version: 0, first: 1000, last: 3000 };
    let copy = Call::Copy { dest: 1, source: 0 };
    let line = Frame { batch: 7, index: 5, count: 100, kind: 1, key: 77, value: 1 }.line();
    let mut scenes = vec![
        scene("size: the audit and little else", &many, Call::Size { version: 0 }),
        scene("lookup in 100", &few, lookup.clone()),
        scene("lookup in 2,000", &many, lookup),
        scene("insert into 100", &few, insert.clone()),
        scene("insert into 2,000", &many, insert),
        scene("remove from 100", &few, remove.clone()),
        scene("remove from 2,000", &many, remove),
        scene("batch of 100 edits in 100", &few, hundred(100, seed)),
        scene("held in 2,000", &many, Call::Held { version: 0 }),
        scene("held between in 2,000", &many, between),
        scene("copy of 100", &few, copy.clone()),
        scene("copy of 2,000", &many, copy),
        scene("union of 100 and 100", &two, union.clone()),
        scene("difference of 100 and 100", &two, difference(0)),
        scene("difference of 2,000 and 2,000", &pair, difference(0)),
        scene("the same with cancelling", &pair, difference(1)),
        scene("listing of 2,000", &many, Call::List { left: 0, right: 15, start: 0, room: 8000 }),
        scene("listing of 2,000 against 2,000", &pair, Call::List { left: 0, right: 1, start: 0, room: 8000 }),
        scene("delta of 10 changes in 2,000", &pair, Call::Frames { from: 0, to: 1, batch: 7, start: 0, room: 350 }),
        scene("frames of 2,000 puts", &many, Call::Frames { from: 15, to: 0, batch: 7, start: 0, room: 70_000 }),
        scene("receive, 2,000 entries", &many, Call::Receive { version: 0, line }),
    ];
    // A union makes a node or more for each entry that both have, so beside 2,000 entries there is room for few. A batch needs room for all its paths at once.
    if n == 4096 {
        scenes.push(scene("batch of 100 edits in 2,000", &many, hundred(2000, seed)));
        scenes.push(scene("lookup in 4,096", &full(n), Call::Lookup { version: 0, key: 76 }));
        scenes.push(scene("held in 4,096", &full(n), Call::Held { version: 0 }));
        scenes.push(scene("held between in 4,096", &full(n), Call::HeldBetween { version: 0, first: 1000, last: 3000 }));
        scenes.push(scene("union of 2,000 and 100", &beside(n, 2000, 100, 31, seed), union.clone()));
        scenes.push(scene("difference of 2,000 and 100", &beside(n, 2000, 100, 31, seed), difference(0)));
        scenes.push(scene("union of 1,500 and its copy", &copied(n, 1500, seed), union.clone()));
        scenes.push(scene("union of 1,000 and 1,000 common keys", &beside(n, 1000, 1000, 2, seed), union.clone()));
        scenes.push(scene("the same, put in another order", &common(n, 1000, seed, |key| key + 1), union.clone()));
        scenes.push(scene("the same, every sum near the limit", &common(n, 1000, seed, |key| u32::MAX / 2 - key), union));
    } else {
        scenes.push(scene("union of 2,000 and 2", &beside(n, 2000, 2, 3, seed), union.clone()));
        scenes.push(scene("union of 700 and its copy", &copied(n, 700, seed), union));
    }
    scenes
}

fn copied(n: usize, count: u32, seed: u64) -> Table {
    let mut table = entries(n, count, seed);
    edited(&mut table, Call::Copy { dest: 1, source: 0 });
    table
}

/// The original has no sums: its own iteration is added up.
fn added(map: &Map, first: u32, last: u32) -> [u32; 2] {
    let empty = Map::new();
    let rows = map.difference_entries(&empty);
    let minutes: u64 = rows.filter(|(key, ..)| (first..=last).contains(key)).map(|(_, value, _)| u64::from(*value)).sum();
    [minutes as u32, (minutes >> 32) as u32]
}

/// The original's own call; lines and inbox, which it does not have, in plain fast Rust.
fn native(maps: &mut [Map], inbox: &mut [u32], call: &Call, reply: &mut Reply) {
    match *call {
        Call::Size { version } => reply.fields[0] = maps[version as usize].len() as u32,
        Call::Lookup { version, key } => reply.fields[1] = *maps[version as usize].get(&key).unwrap_or(&0),
        Call::Held { version } => reply.fields = added(&maps[version as usize], 0, u32::MAX),
        Call::HeldBetween { version, first, last } => reply.fields = added(&maps[version as usize], first, last),
        Call::List { left, right, .. } => {
            let rows = maps[left as usize].difference_entries(&maps[right as usize]);
            for (place, (key, value, other)) in reply.words.chunks_exact_mut(4).zip(rows) {
                place.copy_from_slice(&[key, *value, other.is_some() as u32, *other.unwrap_or(&0)]);
            }
        }
        Call::Frames { from, to, batch, .. } => {
            reply.fields[1] = fast::frames(&maps[from as usize], &maps[to as usize], batch, &mut reply.bytes);
        }
        Call::Receive { version, ref line } => reply.fields[1] = fast::receive(maps, inbox, version, line).unwrap(),
        _ => reply.fields[1] = original::edit(maps, call).unwrap_or(0),
    }
}

/// Both sides do the same before they are timed.
fn agree(scene: &Scene) {
    let (mut block, mut inbox) = (scene.start.clone(), scene.inbox.clone());
    let (mut told, mut own) = (scene.call.blank(), scene.call.blank());
    exports::run_into(&mut block, &mut inbox, &scene.call, &mut told);
    assert_eq!(told.number, 0, "{}", scene.name);
    let (mut maps, mut own_inbox) = (look::plant(&scene.start), scene.inbox.clone());
    native(&mut maps, &mut own_inbox, &scene.call, &mut own);
    assert_eq!((told.words, told.bytes, inbox), (own.words, own.bytes, own_inbox), "{}", scene.name);
    original::alike(&block, &maps).unwrap();
}

fn nanoseconds(work: impl FnOnce()) -> u128 {
    let start = Instant::now();
    work();
    start.elapsed().as_nanos()
}

/// The best of many rounds over the scenes, the mean of a scene. The two take turns, so that neither has the quieter machine.
fn best(scenes: &[&Scene], rounds: usize) -> (u128, u128) {
    let mut best = vec![(u128::MAX, u128::MAX); scenes.len()];
    for _ in 0..rounds {
        for (scene, (exported, own)) in scenes.iter().zip(&mut best) {
            let mut reply = scene.call.blank();
            let (mut block, mut inbox) = (scene.start.clone(), scene.inbox.clone());
            *exported = (*exported).min(nanoseconds(|| exports::run_into(black_box(&mut block), &mut inbox, &scene.call, &mut reply)));
            let (block, mut inbox, mut maps) = (scene.start.clone(), scene.inbox.clone(), look::plant(&scene.start));
            *own = (*own).min(nanoseconds(|| {
                assert_eq!(sizes::check(black_box(&block)), 0);
                native(black_box(&mut maps), &mut inbox, &scene.call, &mut reply);
            }));
            black_box(&reply);
        }
    }
    let (exported, own) = best.iter().fold((0, 0), |(x, y), (exported, own)| (x + exported, y + own));
    (exported / scenes.len() as u128, own / scenes.len() as u128)
}

/// Reading every word of a block once: no audit can take less.
fn reading(n: usize, rounds: usize) -> u128 {
    let block = Table::fresh(n).words();
    (0..rounds).map(|_| nanoseconds(|| {
        black_box(black_box(&block).iter().fold(0u32, |sum, &word| sum.wrapping_add(word)));
    })).min().expect("there is a round")
}

/// A ledger's operation beside the table's own lookup and edit, one after the other: what it may cost at the least.
fn operation(name: &str, start: &[u32], op: &Op, calls: &[Call; 2], rounds: usize) {
    let (mut whole, mut parts) = (u128::MAX, u128::MAX);
    let (mut looked, mut edited) = (calls[0].blank(), calls[1].blank());
    for _ in 0..rounds {
        let (mut ledger, mut block) = ([1000, 0, 1000], start.to_vec());
        whole = whole.min(nanoseconds(|| assert_eq!(ledger::lend(&mut ledger, black_box(&mut block), op).number, 0)));
        let mut block = start.to_vec();
        parts = parts.min(nanoseconds(|| {
            exports::run_into(black_box(&mut block), &mut [], &calls[0], &mut looked);
            exports::run_into(black_box(&mut block), &mut [], &calls[1], &mut edited);
        }));
    }
    println!("{name:42} {:6.2} {whole:13} {parts:13}", whole as f64 / parts as f64);
}

/// Reserve and settle in versions of 100 and 2,000 open calls.
fn operations(n: usize, rounds: usize) {
    println!("\n{:42} {:>6} {:>13} {:>13}", format!("N = {n}, the ledger"), "ratio", "operation, ns", "calls, ns");
    for (count, reserve, settle) in [(100, "reserve, 100 calls open", "settle, 100 calls open"), (2000, "reserve, 2,000 calls open", "settle, 2,000 calls open")] {
        let start = entries(n, count, 0).words();
        let lookup = |key| Call::Lookup { version: 0, key };
        let insert = Call::Insert { dest: 0, source: 0, key: 77, value: 1 };
        operation(reserve, &start, &Op::Reserve { version: 0, call: 77, minutes: 1 }, &[lookup(77), insert], rounds);
        let remove = Call::Remove { dest: 0, source: 0, key: 76 };
        operation(settle, &start, &Op::Settle { version: 0, call: 76, used: 1 }, &[lookup(76), remove], rounds);
    }
}

/// Lines of a batch in turn, so that the processor learns none by heart; damaged, each has one byte that is no digit.
fn batch(damaged: bool) -> Vec<Vec<u8>> {
    let mut random = Random::new(102);
    let mut line = |index| {
        let (key, value) = (random.next() as u32, random.next() as u32);
        let mut line = Frame { batch: 7, index, count: 256, kind: 1, key, value }.line();
        if damaged {
            line[random.below(34)] = b'g';
        }
        line
    };
    (0..256).map(&mut line).collect()
}

/// The best of many rounds, the mean of a line.
fn read_all(lines: &[Vec<u8>], damaged: bool, rounds: usize, refuses: impl Fn(&[u8]) -> bool) -> u128 {
    let round = || nanoseconds(|| lines.iter().for_each(|line| assert_eq!(refuses(black_box(line)), damaged)));
    (0..rounds).map(|_| round()).min().expect("there is a round") / lines.len() as u128
}

/// Reading a line on its own, beside plain fast Rust that does not tell faults apart.
fn reading_lines(rounds: usize) {
    println!("\n{:42} {:>6} {:>13} {:>13}", "lines", "ratio", "exported, ns", "Rust, ns");
    for (name, damaged) in [("parse of a line", false), ("parse of a line with a bad digit", true)] {
        let lines = batch(damaged);
        let exported = read_all(&lines, damaged, rounds, |line| exports::parse(line).0 != 0);
        let own = read_all(&lines, damaged, rounds, |line| black_box(fast::read_line(line)).is_none());
        println!("{name:42} {:6.2} {exported:13} {own:13}", exported as f64 / own as f64);
    }
}

/// A line with a bad digit at a standby of 2,000 entries, beside the audit in Rust and that reading.
fn bad_line(n: usize, rounds: usize) {
    let (start, line) = (entries(n, 2000, 0).words(), batch(true).swap_remove(0));
    let mut inbox = vec![0; INBOX];
    (inbox[0], inbox[1]) = (7, 256);
    let call = Call::Receive { version: 0, line: line.clone() };
    let (mut exported, mut own, mut reply) = (u128::MAX, u128::MAX, call.blank());
    for _ in 0..rounds {
        let mut block = start.clone();
        exported = exported.min(nanoseconds(|| exports::run_into(black_box(&mut block), &mut inbox, &call, &mut reply)));
        assert_ne!(reply.number, 0);
        own = own.min(nanoseconds(|| {
            assert_eq!(sizes::check(black_box(&start)), 0);
            assert!(fast::receive(&mut [], &mut inbox, 0, black_box(&line)).is_none());
        }));
    }
    println!("{:42} {:6.2} {exported:13} {own:13}", format!("receive of a bad line, N = {n}"), exported as f64 / own as f64);
}

/// Whether versions 0 and 1 hold the same entries.
fn same(block: &[u32]) -> bool {
    let mut same = 2;
    assert_eq!(unsafe { exports::ksk_same(block.as_ptr(), block.len(), 0, 1, &mut same) }, 0);
    same == 1
}

/// That question beside a lookup in the same block: both pay for the audit.
fn questions(n: usize, rounds: usize) {
    println!("\n{:42} {:>6} {:>13} {:>13}", format!("N = {n}, same entries?"), "ratio", "same, ns", "lookup, ns");
    let lookup = Call::Lookup { version: 0, key: 76 };
    for (name, table, alike) in [
        ("no: the first of 2,000 differs", again(n, &[0], |_| 2, 0), false),
        ("no: ten of 2,000 differ, far apart", again(n, &keys_from(200, 400), |_| 1, 0), false),
        ("yes: ten neighbours put again as they were", again(n, &keys_from(1000, 2), |key| key + 1, 0), true),
        ("yes: ten far apart put again as they were", again(n, &keys_from(200, 400), |key| key + 1, 0), true),
        ("yes: 1,000, put in another order", common(n, 1000, 0, |key| key + 1), true),
    ] {
        let (start, mut reply) = (table.words(), lookup.blank());
        let (mut asked, mut looked) = (u128::MAX, u128::MAX);
        for _ in 0..rounds {
            let mut block = start.clone();
            asked = asked.min(nanoseconds(|| assert_eq!(same(black_box(&block)), alike)));
            block.copy_from_slice(&start);
            looked = looked.min(nanoseconds(|| exports::run_into(black_box(&mut block), &mut [], &lookup, &mut reply)));
        }
        println!("{name:42} {:6.2} {asked:13} {looked:13}", asked as f64 / looked as f64);
    }
}

/// Lines of ascending keys and of values in no order.
fn listed(count: u32, seed: u64) -> Vec<u8> {
    let mut random = Random::new(seed);
    let line = |i: u32| format!("{:08x}{:08x}\n", 2_000_003 * i, random.next() as u32 | 1);
    (0..count).map(line).collect::<String>().into_bytes()
}

/// A version restored from lines, beside two audits of a block that holds as many entries.
fn restoring(n: usize, rounds: usize) {
    println!("\n{:42} {:>6} {:>13} {:>13}", format!("N = {n}, restore"), "ratio", "restore, ns", "2 audits, ns");
    let size = Call::Size { version: 0 };
    for (name, count, start) in [("100 lines into an empty version", 100, Table::fresh(n)), ("2,000 lines into an empty version", 2000, Table::fresh(n)), ("2,000 lines over 2,000 entries", 2000, entries(n, 2000, 0))] {
        let (start, audited, mut text) = (start.words(), entries(n, count, 0).words(), listed(count, 112));
        let (mut restored, mut audits, mut reply) = (u128::MAX, u128::MAX, size.blank());
        for _ in 0..rounds {
            let mut block = start.clone();
            restored = restored.min(nanoseconds(|| assert_eq!(exports::restore(black_box(&mut block), 0, &mut text), (0, 0))));
            let mut block = audited.clone();
            audits = audits.min(2 * nanoseconds(|| exports::run_into(black_box(&mut block), &mut [], &size, &mut reply)));
        }
        println!("{name:42} {:6.2} {restored:13} {audits:13}", restored as f64 / audits as f64);
    }
}

/// The kiosk's calls beside the same calls on one version of a block, both with the same 60 entries; the ratio is how many times as fast it is.
fn kiosks(n: usize, rounds: usize) {
    println!("\n{:42} {:>6} {:>13} {:>13}", format!("N = {n}, a kiosk of 60 entries"), "times", "kiosk, ns", "table, ns");
    let keys = keys(60, 2, 0);
    let (mut table, mut flat, mut inbox) = (Table::fresh(n), vec![0; 129], vec![0; INBOX]);
    put(&mut table, 0, &keys, |key| key + 1);
    keys.iter().for_each(|&key| assert_eq!(kiosk::run(&mut flat, &mut [], &kiosk::Call::Insert { key, value: key + 1 }).number, 0));
    inbox[0] = 7;
    let line = Frame { batch: 7, index: 0, count: 2, kind: 1, key: 33, value: 5 }.line();
    for (name, call) in [
        ("lookup", kiosk::Call::Lookup { key: 76 }),
        ("insert of a new key", kiosk::Call::Insert { key: 33, value: 5 }),
        ("remove", kiosk::Call::Remove { key: 76 }),
        ("listing", kiosk::Call::List { start: 0, room: 240 }),
        ("receive of a line that puts a new key", kiosk::Call::Receive { line: line.to_vec() }),
    ] {
        let (start, mut times) = (table.words(), [u128::MAX; 2]);
        for _ in 0..rounds {
            let (mut slice, mut block, mut heard) = (flat.clone(), start.clone(), inbox.clone());
            times[0] = times[0].min(nanoseconds(|| assert_eq!(kiosk::run(black_box(&mut slice), &mut heard, &call).number, 0)));
            heard.copy_from_slice(&inbox);
            times[1] = times[1].min(nanoseconds(|| assert_eq!(kiosk::run_tree(black_box(&mut block), &mut heard, [0, 1], &call).number, 0)));
        }
        println!("{name:42} {:6.1} {:13} {:13}", times[1] as f64 / times[0] as f64, times[0], times[1]);
    }
}

/// Whether the exported union of two versions of k entries each, of which so many in a hundred are common, finds room beside them.
fn finds_room(n: usize, k: u32, common: u32) -> bool {
    let mut table = entries(n, k, 0);
    let shared = k * common / 100;
    let mut keys: Vec<u32> = (0..k).map(|i| if i < shared { 2 * (i * k / shared.max(1)) } else { 2 * i + 1 }).collect();
    Random::new(u64::from(k)).shuffle(&mut keys);
    put(&mut table, 1, &keys, |key| key + 1);
    let call = Call::Union { dest: 2, left: 0, right: 1, rule: 0 };
    exports::run(&mut table.words(), &mut [], &call).number == 0
}

/// The largest k for which it does, by halving.
fn largest_union(n: usize, common: u32) -> u32 {
    let (mut fits, mut full) = (0, n as u32 / 2 + 1);
    while full - fits > 1 {
        let k = (fits + full) / 2;
        if finds_room(n, k, common) {
            fits = k;
        } else {
            full = k;
        }
    }
    fits
}

fn main() {
    let rounds = std::env::args().nth(1).map_or(500, |text| text.parse().expect("rounds is a number"));
    println!("best of {rounds}; ratio = exported call / (the original's own call + the same audit in Rust)");
    println!("one block again and again, which the processor learns by heart, then {BLOCKS} blocks of a kind in turn");
    for n in [2048, 4096] {
        println!("\n{:42} {:>6} {:>13} {:>13} {:>6} {:>13} {:>13}", format!("N = {n}"), "ratio", "exported, ns", "Rust, ns", "ratio", "exported, ns", "Rust, ns");
        let all: Vec<Vec<Scene>> = (0..BLOCKS).map(|seed| scenes(n, seed)).collect();
        for at in 0..all[0].len() {
            let kind: Vec<&Scene> = all.iter().map(|scenes| &scenes[at]).collect();
            kind.iter().for_each(|scene| agree(scene));
            print!("{:42}", kind[0].name);
            for (exported, own) in [best(&kind[..1], rounds), best(&kind, rounds.div_ceil(4))] {
                print!(" {:6.2} {exported:13} {own:13}", exported as f64 / own as f64);
            }
            println!();
        }
        println!("{:42} {:>6} {:13}", "reading every word of the block", "", reading(n, rounds));
    }
    println!("\nlargest k for which the union of two versions of k entries finds room at N = 4096");
    for common in [0, 50, 100] {
        println!("{common:3} in 100 common: {}", largest_union(4096, common));
    }
    operations(4096, rounds);
    questions(4096, rounds);
    restoring(4096, rounds);
    kiosks(2016, rounds);
    reading_lines(rounds);
    [2048, 4096].iter().for_each(|&n| bad_line(n, rounds));
}
