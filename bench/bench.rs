//! Measures the proved library beside the plain program, on the same inputs, called the same way.
//!
//!     bench times [COUNTS]   the tables; with a folder of counts also instructions per call
//!     bench counts           makes those counts: run it under callgrind
//!     bench spots COUNTS     where those instructions were spent, by function
//!     bench agree [SEEDS]    random inputs, valid and damaged, on which both sides must do the same
//!     bench search [SEEDS]   the calls that seem slowest of random sets of 64 paths and 256 rules, as `SEED CALL` lines
//!     bench recount FILE     as counts, for the calls in such a file
//!     bench worst FILE [COUNTS]   the slowest of them, by instructions if there are counts, else by time

mod inputs;
#[path = "../tests/entry.rs"]
mod proved;

use inputs::*;
use plain::{Check, Refusal, Reply, Verdict};
use std::collections::{BTreeMap, HashMap};
use std::hint::black_box;

// ---------------------------------------------------------------------------------------------- the two sides

/// A call with its arguments, beside the rule bytes.
#[derive(Clone, Debug)]
enum Call {
    Rewrite,
    Check(Vec<u8>),
    Consistency,
    Ask(usize, usize, usize),
}

#[derive(Clone, Copy, PartialEq)]
enum Side {
    Proved,
    Plain,
}

#[inline(never)]
fn call_proved(rules: &[u8], call: &Call, out: &mut [u8]) -> [usize; 3] {
    let mut answer = [usize::MAX; 3];
    let (from, length, to, room) = (rules.as_ptr(), rules.len(), out.as_mut_ptr(), out.len());
    unsafe {
        match call {
            Call::Rewrite => proved::bozdurmek_rewrite(from, length, to, room, &mut answer),
            Call::Check(document) => {
                proved::bozdurmek_check(from, length, document.as_ptr(), document.len(), &mut answer)
            }
            Call::Consistency => proved::bozdurmek_consistency(from, length, to, room, &mut answer),
            &Call::Ask(kind, left, right) => {
                proved::bozdurmek_ask(from, length, kind, left, right, to, room, &mut answer)
            }
        }
    }
    answer
}

#[inline(never)]
fn call_plain(rules: &[u8], call: &Call, out: &mut [u8]) -> [usize; 3] {
    let refused = |r: Refusal| [0, r.number as usize, r.offset];
    match call {
        Call::Rewrite => plain::rewrite_bytes(rules, out).map_or_else(refused, |n| [1, n, 0]),
        Call::Check(document) => plain::check_bytes(rules, document).map_or_else(refused, |check| match check {
            Check::Obeys => [1, 0, 0],
            Check::Broken { rule, part } => [2, rule, part],
            Check::Missing { path } => [3, path, 0],
        }),
        Call::Consistency => plain::consistency_bytes(rules, out).map_or_else(refused, |verdict| match verdict {
            Verdict::Consistent(n) => [1, n, 0],
            Verdict::Inconsistent(n) => [2, n, 0],
        }),
        &Call::Ask(kind, left, right) => {
            plain::ask_bytes(rules, kind, left, right, out).map_or_else(refused, |reply| match reply {
                Reply::Yes(n) => [1, n, 0],
                Reply::No(n) => [2, n, 0],
            })
        }
    }
}

fn run(side: Side, rules: &[u8], call: &Call, out: &mut [u8]) -> [usize; 3] {
    match side {
        Side::Proved => call_proved(rules, call, out),
        Side::Plain => call_plain(rules, call, out),
    }
}

const ROOM: usize = plain::DOCUMENT_BYTES;

/// Both sides on one input: the same answer and the same bytes in the whole buffer, also if the buffer is just long enough
/// and if it is a byte too short. Returns the answer and what was written.
fn agree(rules: &[u8], call: &Call) -> ([usize; 3], Vec<u8>) {
    let both = |room: usize| {
        let mut buffers = [vec![0xa5; room], vec![0xa5; room]];
        let proved = run(Side::Proved, rules, call, &mut buffers[0]);
        let plain = run(Side::Plain, rules, call, &mut buffers[1]);
        if proved != plain || buffers[0] != buffers[1] {
            println!(
                "DIFFERS\n  rules {rules:?}\n  call {call:?}\n  room {room}\n  proved {proved:?}\n  plain  {plain:?}"
            );
            let [a, b] = &buffers;
            if let Some(at) = a.iter().zip(b).position(|(a, b)| a != b) {
                println!(
                    "  first at byte {at}: proved {:?}, plain {:?}",
                    &a[at..a.len().min(at + 20)],
                    &b[at..b.len().min(at + 20)]
                );
            }
            std::process::exit(1);
        }
        let [buffer, _] = buffers;
        (proved, buffer)
    };
    let (answer, mut written) = both(ROOM);
    let length = match call {
        Call::Check(_) => 0,
        _ if answer[0] == 0 => 0,
        _ => answer[1],
    };
    written.truncate(length);
    if length > 0 {
        both(length);
        both(length - 1);
    }
    (answer, written)
}

// ---------------------------------------------------------------------------------------------- cases

struct Case {
    input: String,
    what: String,
    rules: Vec<u8>,
    call: Call,
}

fn said(call: &Call, answer: [usize; 3], written: &[u8]) -> String {
    let parts = |document: &[u8]| match decode(document)[0] {
        1 => "1 part".to_string(),
        n => format!("{n} parts"),
    };
    let bytes = written.len();
    match (call, answer[0]) {
        (Call::Rewrite, 1) => format!("read and write {bytes} bytes"),
        (Call::Check(document), n) => {
            let verdict = ["refused", "obeys", "broken", "missing"][n];
            format!("check {}, {} bytes: {verdict}", parts(document), document.len())
        }
        (Call::Consistency, 1) => format!("consistent, {}, {bytes} bytes", parts(written)),
        (Call::Consistency, 2) => format!("inconsistent, evidence {bytes} bytes"),
        (&Call::Ask(kind, p, q), n) => {
            let asked = format!("{p} {} {q}", ["", ">", "x", "<>"][kind]);
            match n {
                1 => {
                    let numbers = decode(written);
                    let by = ["", "direct", "dead", "pair"][numbers[0]];
                    format!("ask {asked}: yes, {by}, {bytes} bytes")
                }
                _ => format!("ask {asked}: no, {}, {bytes} bytes", parts(written)),
            }
        }
        _ => format!("refused {} {}", answer[1], answer[2]),
    }
}

fn typical(paths: usize, rules: usize) -> Set {
    let recipe = Recipe { shape: Shape::Even, absences: 20, both_ways: 20, near: 0, required: 15 };
    consistent_set(&mut Random(5), paths, rules, recipe)
}

fn mixed(paths: usize, rules: usize) -> Set {
    let recipe = Recipe { shape: Shape::Even, absences: 33, both_ways: 50, near: 0, required: 15 };
    random_set(&mut Random(6), paths, rules, recipe)
}

/// The first question of this kind, by numbers, that both sides answer so.
fn question(rules: &[u8], paths: usize, wanted: impl Fn(usize, &[u8]) -> bool) -> Option<Call> {
    for kind in [IMPLICATION, ABSENCE] {
        for p in 1..paths {
            for q in 1..paths {
                let call = Call::Ask(kind, p, q);
                let mut out = vec![0; ROOM];
                let answer = call_plain(rules, &call, &mut out);
                if wanted(answer[0], &out[..answer[1]]) {
                    return Some(call);
                }
            }
        }
    }
    None
}

fn longest(rules: &[u8], paths: usize, kind: usize, reply: usize) -> Option<Call> {
    let mut best = (0, None);
    for p in 1..paths {
        for q in 1..paths {
            let call = Call::Ask(kind, p, q);
            let answer = call_plain(rules, &call, &mut vec![0; ROOM]);
            if answer[0] == reply && answer[1] > best.0 {
                best = (answer[1], Some(call));
            }
        }
    }
    best.1
}

fn case(input: &str, rules: &[u8], call: Call) -> Case {
    let (answer, written) = agree(rules, &call);
    Case { input: input.to_string(), what: said(&call, answer, &written), rules: rules.to_vec(), call }
}

fn main_cases() -> Vec<Case> {
    let mut cases = Vec::new();

    let small = listing().bytes();
    for call in [Call::Rewrite, Call::Check(witness(&small)), Call::Consistency] {
        cases.push(case("listing: 5 paths, 3 rules", &small, call));
    }
    for call in [Call::Ask(1, 2, 0), Call::Ask(1, 2, 4), Call::Ask(1, 2, 3), Call::Ask(2, 2, 3), Call::Ask(2, 2, 4)] {
        cases.push(case("listing", &small, call));
    }

    let set = typical(64, 256).bytes();
    let document = witness(&set);
    for call in [Call::Rewrite, Call::Check(document.clone()), Call::Check(padded(&document, 512)), Call::Consistency] {
        cases.push(case("random consistent: 64 paths, 256 rules", &set, call));
    }
    for (kind, reply) in [(IMPLICATION, 1), (ABSENCE, 1), (IMPLICATION, 2), (ABSENCE, 2)] {
        cases.extend(longest(&set, 64, kind, reply).map(|call| case("random consistent", &set, call)));
    }

    let set = mixed(64, 256).bytes();
    cases.push(case("random inconsistent: 64 paths, 256 rules", &set, Call::Consistency));
    let dead = question(&set, 64, |answer, bytes| answer == 1 && bytes[0] == 2);
    cases.extend(dead.map(|call| case("random inconsistent", &set, call)));

    let set = spine().bytes();
    let document = witness(&set);
    for call in [
        Call::Rewrite,
        Call::Check(document.clone()),
        Call::Check(padded(&document, 512)),
        Call::Check(dense_document(2, 3)),
        Call::Consistency,
    ] {
        cases.push(case("spine: 64 paths, 256 rules", &set, call));
    }
    for call in [Call::Ask(1, 1, 63), Call::Ask(2, 1, 63)] {
        cases.push(case("spine", &set, call));
    }

    cases.push(case("chain: 64 paths, 256 rules", &chain().bytes(), Call::Ask(1, 1, 63)));
    cases.push(case("dead chain: 64 paths, 256 rules", &dead_chain().bytes(), Call::Ask(1, 1, 63)));
    cases.push(case("two chains: 64 paths, 256 rules", &two_chains().bytes(), Call::Ask(2, 1, 21)));
    for call in [Call::Consistency, Call::Ask(1, 7, 63)] {
        cases.push(case("ring: 64 paths, 256 rules", &ring().bytes(), call));
    }
    cases
}

/// How the calls grow with the rules (the first so many of one set) and with the paths (a set each; 64 paths are the last of
/// the first series).
fn growth_cases() -> Vec<Case> {
    let mut cases = Vec::new();
    let mut add = |input: &str, consistent: Set, mixed: Set| {
        let (consistent, mixed) = (consistent.bytes(), mixed.bytes());
        cases.push(case(input, &consistent, Call::Rewrite));
        cases.push(case(input, &consistent, Call::Check(witness(&consistent))));
        cases.push(case(input, &consistent, Call::Consistency));
        let paths = consistent[0] as usize;
        cases.extend(longest(&consistent, paths, IMPLICATION, 2).map(|call| case(input, &consistent, call)));
        cases.push(case(input, &mixed, Call::Consistency));
    };
    for rules in [16, 32, 64, 128, 256] {
        let input = format!("64 paths, {rules} rules");
        add(&input, typical(64, 256).first_rules(rules), mixed(64, 256).first_rules(rules));
    }
    for paths in [8, 16, 32] {
        add(&format!("{paths} paths, 256 rules"), typical(paths, 256), mixed(paths, 256));
    }
    cases
}

// ---------------------------------------------------------------------------------------------- times

extern "C" {
    fn clock_gettime(clock: i32, time: *mut [i64; 2]) -> i32;
}

/// Nanoseconds that this thread has had a processor. What others do meanwhile is not in it, as it would be in
/// `std::time::Instant`; without others the two agree.
fn now() -> f64 {
    const THREAD: i32 = 3;
    let mut time = [0; 2];
    let done = unsafe { clock_gettime(THREAD, &mut time) };
    assert_eq!(done, 0, "no clock of the thread");
    time[0] as f64 * 1e9 + time[1] as f64
}

/// Nanoseconds per call: the best of many short runs, in which the two sides take turns.
fn time(case: &Case, turns: usize) -> [f64; 2] {
    let sides = [Side::Proved, Side::Plain];
    let mut out = vec![0; ROOM];
    let mut batch = |side, calls: usize| {
        let start = now();
        for _ in 0..calls {
            black_box(run(side, black_box(&case.rules), black_box(&case.call), black_box(&mut out)));
        }
        (now() - start) / calls as f64
    };
    // some 100 microseconds a run: short enough to fall between two interruptions
    let calls = sides.map(|side| {
        let once = (0..5).map(|_| batch(side, 1)).fold(f64::MAX, f64::min);
        (100_000.0 / once).ceil() as usize
    });
    let mut best = [f64::MAX; 2];
    for _ in 0..turns {
        for (i, side) in sides.into_iter().enumerate() {
            best[i] = best[i].min(batch(side, calls[i]));
        }
    }
    best
}

// ---------------------------------------------------------------------------------------------- instructions

/// A request to callgrind, which sees these instructions; without it they do nothing.
fn callgrind(request: usize, argument: usize) {
    let words = [0x4354_0000 + request, argument, 0, 0, 0, 0];
    #[cfg(target_arch = "x86_64")]
    unsafe {
        std::arch::asm!(
            "rol rdi, 3", "rol rdi, 13", "rol rdi, 61", "rol rdi, 51", "xchg rbx, rbx",
            in("rax") words.as_ptr(),
            inout("rdx") 0usize => _,
            in("rdi") 0usize,
            options(nostack),
        );
    }
}

const ZERO: usize = 1;
const DUMP_AS: usize = 3;
const START: usize = 4;

/// Makes each call once on each side. The dump after it bears the number of the case, twice, and one more for the plain side.
fn counts(cases: &[Case]) {
    let mut out = vec![0; ROOM];
    callgrind(START, 0);
    for (number, case) in cases.iter().enumerate() {
        for (i, side) in [Side::Proved, Side::Plain].into_iter().enumerate() {
            let name = format!("{}\0", 2 * number + i);
            callgrind(ZERO, 0);
            black_box(run(side, black_box(&case.rules), black_box(&case.call), black_box(&mut out)));
            callgrind(DUMP_AS, name.as_ptr() as usize);
        }
    }
}

/// What a dump says: instructions in each function itself, without those that it called.
type Dump = HashMap<String, f64>;

fn read_dump(text: &str) -> Dump {
    let mut names = HashMap::new();
    let mut dump = Dump::new();
    let mut function = String::new();
    let mut called = false;
    for line in text.lines() {
        // fn=(number) name, where the name is left out if the number was met before
        if let Some((key @ ("fn" | "cfn"), rest)) = line.split_once('=') {
            let (number, name) = rest.split_once(' ').unwrap_or((rest, ""));
            let known = names.entry(number.to_string()).or_insert(String::new());
            if !name.is_empty() {
                *known = name.to_string();
            }
            if key == "fn" {
                function = known.clone();
            }
        } else if line.starts_with("calls=") {
            called = true; // the next line is the cost of the call
        } else if line.starts_with(|c: char| c.is_ascii_digit() || c == '+' || c == '-' || c == '*') {
            if !called {
                let cost = line.split(' ').nth(1).and_then(|n| n.parse::<f64>().ok());
                *dump.entry(function.clone()).or_default() += cost.unwrap_or(0.0);
            }
            called = false;
        }
    }
    dump
}

/// The dumps in a folder, by the number that each bears.
fn read_counts(folder: &str) -> HashMap<usize, Dump> {
    let mut dumps = HashMap::new();
    for file in std::fs::read_dir(folder).into_iter().flatten().flatten() {
        let text = std::fs::read_to_string(file.path()).unwrap_or_default();
        let name = text.lines().find_map(|line| line.strip_prefix("desc: Trigger: Client Request: ")?.parse().ok());
        if let Some(name) = name {
            dumps.insert(name, read_dump(&text));
        }
    }
    dumps
}

fn total(dump: &Dump) -> f64 {
    dump.values().sum()
}

fn spots(cases: &[Case], folder: &str) {
    let dumps = read_counts(folder);
    for (number, case) in cases.iter().enumerate() {
        println!("\n{}, {}", case.input, case.what);
        for (i, side) in ["proved", "plain"].into_iter().enumerate() {
            let Some(dump) = dumps.get(&(2 * number + i)) else { continue };
            let all = total(dump);
            println!("  {side}: {all} instructions");
            let mut functions: Vec<_> = dump.iter().collect();
            functions.sort_by(|a, b| b.1.total_cmp(a.1));
            for (function, cost) in functions.into_iter().take(8).filter(|(_, cost)| **cost > all / 1000.0) {
                println!("    {:5.1} %  {cost:8}  {function}", 100.0 * cost / all);
            }
        }
    }
}

// ---------------------------------------------------------------------------------------------- tables

/// The best times of all cases, over several rounds: what disturbs one round is gone in another.
fn best_times(cases: &[Case]) -> Vec<[f64; 2]> {
    let mut best = vec![[f64::MAX; 2]; cases.len()];
    for _ in 0..8 {
        for (best, case) in best.iter_mut().zip(cases) {
            let [proved, plain] = time(case, 40);
            *best = [best[0].min(proved), best[1].min(plain)];
        }
    }
    best
}

const HEAD: &str = "| input | call | proved ns | plain ns | ratio | proved instr. | plain instr. | ratio |
|---|---|---:|---:|---:|---:|---:|---:|";

fn print_row(case: &Case, [proved, plain]: [f64; 2], counts: Option<(f64, f64)>) {
    print!("| {} | {} | {proved:.0} | {plain:.0} | {:.1} |", case.input, case.what, proved / plain);
    match counts {
        Some((proved, plain)) => println!(" {proved} | {plain} | {:.1} |", proved / plain),
        None => println!(" | | |"),
    }
}

fn tables(counts: Option<&str>) {
    let (main, growth) = (main_cases(), growth_cases());
    let counted = counts.map(read_counts).unwrap_or_default();
    let many = main.len();
    let cases: Vec<Case> = main.into_iter().chain(growth).collect();
    let times = best_times(&cases);
    let count = |number: usize, i: usize| counted.get(&(2 * number + i)).map(total);
    for (number, (case, times)) in cases.iter().zip(times).enumerate() {
        if number == 0 || number == many {
            println!("\n{}\n\n{HEAD}", if number == 0 { "Calls" } else { "Growth" });
        }
        print_row(case, times, count(number, 0).zip(count(number, 1)));
    }
}

// ---------------------------------------------------------------------------------------------- searches

fn damaged(random: &mut Random, bytes: &[u8]) -> Vec<u8> {
    let mut bytes = bytes.to_vec();
    for _ in 0..1 + random.below(2) {
        let at = random.below(bytes.len() + 1);
        let value = [0, 1, 2, 127, 128, 255, random.below(64), random.below(256)][random.below(8)] as u8;
        match random.below(4) {
            0 => bytes.truncate(at),
            1 => bytes.insert(at, value),
            2 if at < bytes.len() => drop(bytes.remove(at)),
            _ if at < bytes.len() => bytes[at] = value,
            _ => {}
        }
    }
    bytes
}

/// Every call on random sets of all sizes and on damaged files; ends the program at the first difference.
fn search_differences(seeds: u64) {
    let mut calls = 0;
    let mut answers = BTreeMap::new();
    for seed in 0..seeds {
        let random = &mut Random(1000 + seed);
        let paths = [1, 2, 3, 5, 8, 16, 40, 64][random.below(8)];
        let rules = [0, 1, 2, 4, 8, 30, 128, 256][random.below(8)];
        let recipe = random_recipe(random);
        let mut set = random_set(random, paths, rules, recipe);
        let parents = set.parents.clone();
        if random.chance(30) {
            set.labels = (0..paths).map(|_| random.below(1 + paths * paths)).collect();
            // may repeat
        }
        if random.chance(5) {
            set.parents = (0..paths).map(|x| x.saturating_sub(1 + random.below(2))).collect();
            // may be too deep
        }
        let set = set.bytes();
        let mut see = |rules: &[u8], call: Call| {
            let (answer, written) = agree(rules, &call);
            let name = format!("{call:?}");
            let name: String = name.chars().take_while(|c| c.is_alphabetic()).collect();
            let refused = if answer[0] == 0 { answer[1] } else { 0 };
            *answers.entry((name, answer[0], refused)).or_insert(0) += 1;
            calls += 1;
            (answer, written)
        };
        see(&set, Call::Rewrite);
        let mut documents = Vec::new();
        let (answer, written) = see(&set, Call::Consistency);
        if answer[0] == 1 {
            documents.push(written);
        }
        for _ in 0..6 {
            let (kind, p, q) = (1 + random.below(3), random.below(paths), random.below(paths));
            let (answer, written) = see(&set, Call::Ask(kind, p, q));
            if answer[0] == 2 {
                documents.push(written);
            }
        }
        see(&set, Call::Ask(random.below(5), random.below(paths + 1), random.below(paths + 1)));
        for _ in 0..3 {
            let count = [1, 2, 5, 20, 100, 512][random.below(6)];
            see(&set, Call::Check(random_document(random, &parents, count)));
        }
        see(&set, Call::Check(vec![0; 65_535 + random.below(3)]));
        for document in documents {
            let count = decode(&document)[0];
            if count > 1 && count < 512 {
                see(&set, Call::Check(padded(&document, (count + random.below(200)).min(512))));
            }
            for _ in 0..3 {
                see(&set, Call::Check(damaged(random, &document)));
            }
            see(&set, Call::Check(document));
        }
        for _ in 0..4 {
            let file = damaged(random, &set);
            see(&file, Call::Rewrite);
            see(&file, Call::Consistency);
            see(&file, Call::Ask(1 + random.below(3), random.below(paths), random.below(paths)));
            see(&file, Call::Check(vec![1, 0, 0]));
        }
    }
    println!("{calls} calls on {seeds} seeds: the same answers and bytes");
    for ((call, answer, refusal), many) in answers {
        let refused = if answer == 0 { format!("refused {refusal}") } else { answer.to_string() };
        println!("  {call} {refused}: {many}");
    }
}

/// The set of 64 paths and 256 rules drawn from a seed, the shape of its tree, and the calls to try: consistency first.
fn drawn(seed: u64) -> (Shape, Vec<u8>, Vec<Call>) {
    let random = &mut Random(1_000_000 + seed);
    let recipe = random_recipe(random);
    let make = if random.chance(50) { random_set } else { consistent_set };
    let set = make(random, 64, 256, recipe).bytes();
    let mut calls = vec![Call::Consistency];
    for _ in 0..5 {
        calls.push(Call::Ask(1 + random.below(3), random.below(64), random.below(64)));
    }
    (recipe.shape, set, calls)
}

/// Prints seed and number of the calls that are slowest on the proved side. Two calls each rank roughly: so many are kept
/// that the slowest are among them.
fn search(seeds: u64) {
    const KEPT: usize = 60;
    let mut out = vec![0; ROOM];
    let mut slowest: [Vec<(f64, u64, usize)>; 2] = Default::default();
    for seed in 0..seeds {
        let (_, set, calls) = drawn(seed);
        for (number, call) in calls.iter().enumerate() {
            let once = |_| {
                let start = now();
                black_box(call_proved(black_box(&set), black_box(call), black_box(&mut out)));
                now() - start
            };
            let took = (0..2).map(once).fold(f64::MAX, f64::min);
            let slow = &mut slowest[number.min(1)];
            slow.push((took, seed, number));
            if slow.len() > 2 * KEPT {
                slow.sort_by(|a, b| b.0.total_cmp(&a.0));
                slow.truncate(KEPT);
            }
        }
    }
    for mut slow in slowest {
        slow.sort_by(|a, b| b.0.total_cmp(&a.0));
        for (_, seed, number) in slow.into_iter().take(KEPT) {
            println!("{seed} {number}");
        }
    }
}

/// The calls in a file that a search made.
fn found(file: &str) -> Vec<Case> {
    let text = std::fs::read_to_string(file).expect("the file of a search");
    let numbers: Vec<u64> = text.split_whitespace().map(|n| n.parse().expect("a number")).collect();
    let one = |pair: &[u64]| {
        let (shape, set, calls) = drawn(pair[0]);
        case(&format!("seed {}, {shape:?}", pair[0]), &set, calls[pair[1] as usize].clone())
    };
    numbers.chunks_exact(2).map(one).collect()
}

fn worst(cases: &[Case], counts: Option<&str>) {
    const SHOWN: usize = 5;
    let counted = counts.map(read_counts).unwrap_or_default();
    let count = |number: usize, i: usize| counted.get(&(2 * number + i)).map(total);
    for (title, questions) in [("Slowest consistency", false), ("Slowest question", true)] {
        let of_kind = |&number: &usize| matches!(cases[number].call, Call::Ask(..)) == questions;
        let mut rows: Vec<usize> = (0..cases.len()).filter(of_kind).collect();
        let mut cost: HashMap<usize, f64> = HashMap::new();
        for &row in &rows {
            cost.insert(row, count(row, 0).unwrap_or_else(|| time(&cases[row], 20)[0]));
        }
        rows.sort_by(|a, b| cost[b].total_cmp(&cost[a]));
        rows.truncate(SHOWN);
        println!("\n{title}\n\n{HEAD}");
        for row in rows {
            print_row(&cases[row], time(&cases[row], 200), count(row, 0).zip(count(row, 1)));
        }
    }
}

fn main() {
    let words: Vec<String> = std::env::args().collect();
    let word = |i: usize| words.get(i).map(String::as_str);
    let seeds = word(2).and_then(|n| n.parse().ok());
    match word(1) {
        Some("times") => tables(word(2)),
        Some("counts") => counts(&main_cases().into_iter().chain(growth_cases()).collect::<Vec<_>>()),
        Some("spots") => spots(&main_cases(), word(2).unwrap_or("")),
        Some("agree") => search_differences(seeds.unwrap_or(2000)),
        Some("search") => search(seeds.unwrap_or(3000)),
        Some("recount") => counts(&found(word(2).unwrap_or(""))),
        Some("worst") => worst(&found(word(2).unwrap_or("")), word(3)),
        _ => {
            eprintln!("usage: bench times|counts|spots|agree|search|recount|worst, as the head of bench.rs says");
            std::process::exit(2);
        }
    }
}
