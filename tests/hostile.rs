// tests/hostile runs this: hostile PROGRAM AT SEED. AT is a file that holds the number of the case at hand, for a driver that dies.
mod calls;
use calls::{hex, numbers, put_number, tight, Calls, Left, ENOUGH};
use std::collections::BTreeMap;
use std::fs::File;
use std::io::{Read, Write};
use std::os::fd::FromRawFd;
use std::os::unix::fs::FileExt;
use std::process::{exit, Child, Command, Stdio};

const ARCHIVE_CASES: usize = 60_000;
const PROGRAM_CASES: usize = 6_000;
const PIECE_CASES: usize = 300;
const READS: usize = 4096; // what the program reads of its input

// ---- random files

struct Random(u64);

impl Random {
    fn next(&mut self) -> u64 {
        self.0 = self.0.wrapping_add(0x9E37_79B9_7F4A_7C15);
        let mut z = self.0;
        z = (z ^ (z >> 30)).wrapping_mul(0xBF58_476D_1CE4_E5B9);
        z = (z ^ (z >> 27)).wrapping_mul(0x94D0_49BB_1331_11EB);
        z ^ (z >> 31)
    }

    fn below(&mut self, n: usize) -> usize {
        (self.next() % n as u64) as usize
    }

    fn one_in(&mut self, n: usize) -> bool {
        self.below(n) == 0
    }

    fn bytes(&mut self, n: usize) -> Vec<u8> {
        (0..n).map(|_| self.next() as u8).collect()
    }

    /// Mostly small, sometimes as large as may be.
    fn small_to(&mut self, most: usize) -> usize {
        let top = [4, 8, 16, most][self.below(4)].min(most);
        self.below(top + 1)
    }
}

/// The numbers of a rule file, by section.
#[derive(Clone)]
struct Table {
    root: usize,
    paths: Vec<(usize, usize)>,
    required: Vec<usize>,
    rules: Vec<[usize; 3]>,
}

impl Table {
    fn count(&self) -> usize {
        self.paths.len() + 1
    }

    fn file(&self) -> Vec<u8> {
        let mut to = Vec::new();
        put_number(self.count(), &mut to);
        put_number(self.root, &mut to);
        self.paths.iter().for_each(|&(p, l)| [p, l].iter().for_each(|&n| put_number(n, &mut to)));
        put_number(self.required.len(), &mut to);
        self.required.iter().for_each(|&n| put_number(n, &mut to));
        put_number(self.rules.len(), &mut to);
        self.rules.iter().flatten().for_each(|&n| put_number(n, &mut to));
        to
    }

    /// The table of a file that was accepted.
    fn of(file: &[u8]) -> Table {
        let all = numbers(file).expect("an accepted file is whole numbers");
        let count = all[0];
        let at = 2 * count;
        let required = all[at];
        let first = at + 2 + required;
        Table {
            root: all[1],
            paths: (1..count).map(|x| (all[2 * x], all[2 * x + 1])).collect(),
            required: all[at + 1..at + 1 + required].to_vec(),
            rules: all[first..].chunks(3).map(|r| [r[0], r[1], r[2]]).collect(),
        }
    }

    fn random(random: &mut Random) -> Table {
        let label = |random: &mut Random| if random.one_in(4) { random.below(16384) } else { random.below(4) };
        let root = label(random);
        let (mut paths, mut depth) = (Vec::new(), vec![1]);
        for _ in 0..random.small_to(63) {
            let path = (random.below(depth.len()), label(random));
            if depth[path.0] < 8 && !paths.contains(&path) {
                depth.push(depth[path.0] + 1);
                paths.push(path);
            }
        }
        let count = paths.len() + 1;
        let rare = 1 + random.below(6);
        let required = (1..count).filter(|_| random.one_in(rare)).collect();
        let many = random.small_to(256);
        let absent = 2 + random.below(8);
        let kind = |random: &mut Random| if random.one_in(absent) { 2 } else { 1 + 2 * random.below(2) };
        let rules = (0..many).map(|_| [kind(random), random.below(count), random.below(count)]).collect();
        Table { root, paths, required, rules }
    }

    /// A document of the table, parts shared here and there.
    fn document(&self, random: &mut Random) -> Vec<u8> {
        let (mut path, mut kids) = (vec![0], vec![Vec::new()]);
        for _ in 0..random.small_to(511) {
            let namer = random.below(path.len());
            let below: Vec<usize> = (1..self.count()).filter(|&x| self.paths[x - 1].0 == path[namer]).collect();
            if below.is_empty() {
                continue;
            }
            let new = path.len();
            path.push(below[random.below(below.len())]);
            kids.push(Vec::new());
            kids[namer].push(new);
            for other in 0..new {
                if other != namer && path[other] == path[namer] && random.one_in(6) {
                    kids[other].push(new);
                }
            }
        }
        let mut to = Vec::new();
        put_number(path.len(), &mut to);
        for (p, k) in path.iter().zip(&kids) {
            put_number(*p, &mut to);
            put_number(k.len(), &mut to);
            k.iter().for_each(|&n| put_number(n, &mut to));
        }
        to
    }
}

/// Bytes with some changed, cut, doubled or put in.
fn mutated(mut bytes: Vec<u8>, random: &mut Random) -> Vec<u8> {
    for _ in 0..1 + random.below(3) {
        let at = random.below(bytes.len() + 1);
        let some = random.below(9).min(bytes.len() - at);
        match random.below(7) {
            0 if at < bytes.len() => bytes[at] = random.next() as u8,
            1 if at < bytes.len() => bytes[at] ^= 1 << random.below(8),
            2 if at < bytes.len() => bytes[at] = bytes[at].wrapping_add([1, 255, 128][random.below(3)]),
            3 => bytes.truncate(at),
            4 => drop(bytes.drain(at..at + some)),
            5 => {
                let part = bytes[at..at + some].to_vec();
                bytes.splice(at..at, part);
            }
            _ => {
                let n = 1 + random.below(4);
                let part = random.bytes(n);
                bytes.splice(at..at, part);
            }
        }
    }
    bytes
}

fn file(random: &mut Random) -> Vec<u8> {
    match random.below(20) {
        0..=3 => Table::random(random).file(),
        4..=15 => mutated(Table::random(random).file(), random),
        16 => {
            let n = random.small_to(1100);
            random.bytes(n)
        }
        17 => {
            let (n, top) = (random.small_to(600), [3, 8, 70, 16384][random.below(4)]);
            let mut to = Vec::new();
            (0..n).for_each(|_| put_number(random.below(top), &mut to));
            to
        }
        18 => {
            let mut to = Table::random(random).file();
            let n = READS + random.below(3) * READS;
            to.extend(random.bytes(n));
            to
        }
        _ => {
            let n = READS - 2 + random.below(5);
            let byte = [0, 1, 64, 127, 128, 255][random.below(6)];
            vec![byte; n]
        }
    }
}

fn document(table: &Table, random: &mut Random) -> Vec<u8> {
    match random.below(10) {
        0..=2 => table.document(random),
        3..=7 => mutated(table.document(random), random),
        8 => {
            let n = random.small_to(600);
            random.bytes(n)
        }
        _ => vec![[0, 1, 255][random.below(3)]; ENOUGH - 1 + random.below(3)],
    }
}

// ---- what is counted and said

#[derive(Default)]
struct Tally {
    counts: BTreeMap<String, usize>,
    failures: usize,
}

impl Tally {
    fn count(&mut self, what: String) {
        *self.counts.entry(what).or_default() += 1;
    }

    fn fail(&mut self, case: &str, bytes: &[u8], why: String) {
        self.failures += 1;
        let shown = &bytes[..bytes.len().min(1200)];
        println!("FAILS {case}: {why}\n  {} bytes: {}", bytes.len(), hex(shown));
    }

    fn hold(&mut self, holds: bool, case: &str, bytes: &[u8], why: &str, left: &Left) {
        if !holds {
            self.fail(case, bytes, format!("{why}: {:?}", left.answer));
        }
    }

    /// A call that wrote: nothing touched, and again with the exact room and one byte less.
    fn written(&mut self, case: &str, bytes: &[u8], left: &Left, again: impl FnMut(usize) -> Left) {
        self.hold(left.wrong.is_empty(), case, bytes, &left.wrong.join(", "), left);
        if left.answer[0] != 0 {
            self.count("written again with its exact room and one byte less".to_string());
            for why in tight(left, again) {
                self.fail(case, bytes, why);
            }
        }
    }

    fn answered(&mut self, call: &str, words: &[&str], left: &Left) {
        let word = words.get(left.answer[0]).unwrap_or(&"no such answer");
        let number = if left.answer[0] == 0 { format!(" {}", left.answer[1]) } else { String::new() };
        self.count(format!("{call} {word}{number}"));
    }
}

// ---- the archive

/// A file that the reader refuses: each call gives that refusal.
fn refused_alike(calls: &mut Calls, tally: &mut Tally, case: &str, bytes: &[u8], first: &Left, random: &mut Random) {
    let known = (1..=11).contains(&first.answer[1]) && first.answer[2] <= bytes.len();
    tally.hold(known, case, bytes, "no refusal of a file", first);
    let n = random.below(40);
    let document = random.bytes(n);
    let room = random.below(100);
    let all = [calls.check(bytes, &document), calls.consistency(bytes, room), calls.ask(bytes, random.below(5), random.below(9), 0, room)];
    for left in all {
        tally.hold(left == *first, case, bytes, "a call refuses otherwise than reading does", &left);
    }
}

fn consistency_case(calls: &mut Calls, tally: &mut Tally, case: &str, bytes: &[u8]) {
    let left = calls.consistency(bytes, ENOUGH);
    tally.answered("consistency", &["refused", "consistent", "inconsistent"], &left);
    tally.written(case, bytes, &left, |room| calls.consistency(bytes, room));
    match left.answer[0] {
        1 => {
            let checked = calls.check(bytes, &left.bytes);
            tally.hold(checked.answer == [1, 0, 0], case, bytes, "the witness does not obey", &checked);
        }
        2 => {
            let evidence = numbers(&left.bytes).is_some_and(|e| e.len() > 1 && (e[0] == 2 || e[0] == 3));
            tally.hold(evidence, case, bytes, "no evidence", &left);
        }
        _ => tally.fail(case, bytes, format!("consistency of an accepted file: {:?}", left.answer)),
    }
}

fn question_case(calls: &mut Calls, tally: &mut Tally, case: &str, bytes: &[u8], table: &Table, random: &mut Random) {
    let far = if random.one_in(8) { 3 } else { 0 };
    let wild = [usize::MAX, 1 << 32, 256 + 1, 1 << 63];
    let kind = if random.one_in(16) { wild[random.below(4)] } else { 1 - far / 3 + random.below(3 + far / 3) };
    let (p, q) = (random.below(table.count() + far), random.below(table.count() + far));
    let left = calls.ask(bytes, kind, p, q, ENOUGH);
    tally.answered("ask", &["refused", "yes", "no"], &left);
    tally.written(case, bytes, &left, |room| calls.ask(bytes, kind, p, q, room));
    let askable = (1..=3).contains(&kind) && p < table.count() && q < table.count();
    let asked = format!("asked {kind} {p} {q}");
    tally.hold(askable == (left.answer != [0, 13, 0]) && (!askable || left.answer[0] != 0), case, bytes, &asked, &left);
    if left.answer[0] == 1 {
        let evidence = numbers(&left.bytes).is_some_and(|e| e.len() > 1 && (1..=3).contains(&e[0]));
        tally.hold(evidence, case, bytes, "no evidence", &left);
    }
    if left.answer[0] == 2 {
        let checked = calls.check(bytes, &left.bytes);
        tally.hold([1, 3].contains(&checked.answer[0]), case, bytes, "the counter-document breaks a rule", &checked);
        if table.rules.len() < 256 {
            let mut more = table.clone();
            more.rules.push([kind, p, q]);
            let checked = calls.check(&more.file(), &left.bytes);
            let broken = checked.answer[0] == 2 && checked.answer[1] == table.rules.len();
            tally.hold(broken, case, bytes, &format!("the counter-document obeys, {asked}"), &checked);
        }
    }
}

fn document_case(calls: &mut Calls, tally: &mut Tally, case: &str, bytes: &[u8], table: &Table, random: &mut Random) {
    let document = document(table, random);
    let left = calls.check(bytes, &document);
    tally.answered("check", &["refused", "obeys", "broken", "missing"], &left);
    tally.hold(left.wrong.is_empty(), case, &document, &left.wrong.join(", "), &left);
    let [which, one, two] = left.answer;
    let fits = match which {
        0 => [1, 2, 11, 14, 15, 16, 17, 18, 19].contains(&one) && two <= document.len(),
        1 => one == 0 && two == 0,
        2 => one < table.rules.len() && two < 512,
        3 => table.required.contains(&one) && two == 0,
        _ => false,
    };
    tally.hold(fits, case, &document, "no answer of a check", &left);
    tally.hold((document.len() > ENOUGH) == (left.answer == [0, 14, 0]), case, &document, "14 and the length", &left);
}

fn archive(seed: u64, at: &File, tally: &mut Tally) {
    let mut random = Random(seed);
    let mut calls = Calls::new(1 << 17);
    for number in 0..ARCHIVE_CASES {
        at.write_all_at(format!("{number:<12}\n").as_bytes(), 0).expect("the case is noted");
        let case = format!("archive case {number}");
        let bytes = file(&mut random);
        let first = calls.rewrite(&bytes, ENOUGH);
        tally.answered("rewrite", &["refused", "written"], &first);
        tally.written(&case, &bytes, &first, |room| calls.rewrite(&bytes, room));
        if first.answer[0] == 0 {
            refused_alike(&mut calls, tally, &case, &bytes, &first, &mut random);
            continue;
        }
        tally.hold(first.bytes == bytes, &case, &bytes, "written otherwise than read", &first);
        let table = Table::of(&bytes);
        consistency_case(&mut calls, tally, &case, &bytes);
        question_case(&mut calls, tally, &case, &bytes, &table, &mut random);
        document_case(&mut calls, tally, &case, &bytes, &table, &mut random);
    }
}

// ---- the program

/// What the program has to print for these bytes, by the calls of the archive.
fn listing(calls: &mut Calls, bytes: &[u8]) -> String {
    let read = calls.rewrite(bytes, ENOUGH);
    let left = if read.answer[0] == 0 { read } else { calls.consistency(bytes, ENOUGH) };
    let all = numbers(&left.bytes).expect("an answer is whole numbers");
    let words = |ns: &[usize]| ns.iter().map(|n| format!(" {n}")).collect::<String>();
    match left.answer {
        [0, number, offset] => format!("refused {number} {offset}\n"),
        [2, _, _] => format!("inconsistent{}\n", words(&all)),
        _ => {
            let mut text = format!("consistent {}\n", all[0]);
            let mut i = 1;
            for part in 0..all[0] {
                let kids = &all[i + 2..i + 2 + all[i + 1]];
                text += &format!("{part} {}{}\n", all[i], words(kids));
                i += 2 + kids.len();
            }
            text
        }
    }
}

fn is_number(word: &str) -> bool {
    word == "0" || (!word.is_empty() && !word.starts_with('0') && word.bytes().all(|b| b.is_ascii_digit()))
}

/// One of the three forms: the verdict and its parts, the evidence in one line, or the refusal in one line.
fn is_form(text: &str) -> bool {
    let Some(body) = text.strip_suffix('\n') else { return false };
    let lines: Vec<Vec<&str>> = body.split('\n').map(|l| l.split(' ').collect()).collect();
    let (first, rest) = lines.split_first().expect("a split has a part");
    if !first[1..].iter().all(|w| is_number(w)) || !rest.iter().flatten().all(|w| is_number(w)) {
        return false;
    }
    match first[0] {
        "refused" => first.len() == 3 && rest.is_empty(),
        "inconsistent" => first.len() > 2 && rest.is_empty(),
        "consistent" => {
            let numbered = rest.iter().enumerate().all(|(i, l)| l.len() >= 2 && l[0] == i.to_string());
            first.len() == 2 && first[1] == rest.len().to_string() && numbered
        }
        _ => false,
    }
}

extern "C" {
    fn socketpair(domain: i32, kind: i32, protocol: i32, ends: *mut i32) -> i32;
}

/// Two ends of a connection on which each write is one read.
fn records() -> (File, File) {
    let mut ends = [0i32; 2];
    // Unix, sequenced packets, closed in children that are not given an end
    assert_eq!(unsafe { socketpair(1, 5 | 0o2000000, 0, ends.as_mut_ptr()) }, 0, "no connection");
    unsafe { (File::from_raw_fd(ends[0]), File::from_raw_fd(ends[1])) }
}

struct Program<'a> {
    path: &'a str,
    calls: Calls,
}

impl Program<'_> {
    fn spawn(&self, input: Stdio) -> Child {
        let mut command = Command::new(self.path);
        command.stdin(input).stdout(Stdio::piped()).stderr(Stdio::piped());
        command.spawn().expect("the program starts")
    }

    /// Holds what a program that has its input prints to what the calls say of the bytes.
    fn hold(&mut self, mut child: Child, case: &str, bytes: &[u8], tally: &mut Tally) {
        let (mut text, mut errors) = (Vec::new(), Vec::new());
        child.stdout.take().unwrap().read_to_end(&mut text).expect("what it prints");
        child.stderr.take().unwrap().read_to_end(&mut errors).expect("what it complains of");
        let status = child.wait().expect("the program ends");
        let text = String::from_utf8_lossy(&text).to_string();
        let want = listing(&mut self.calls, bytes);
        tally.count(format!("program {}", text.split(' ').next().unwrap_or("")));
        if status.code() != Some(0) || !errors.is_empty() {
            tally.fail(case, bytes, format!("{status}, {}", String::from_utf8_lossy(&errors)));
        }
        if !is_form(&text) {
            tally.fail(case, bytes, format!("no line of the three forms: {text:?}"));
        }
        if text != want {
            tally.fail(case, bytes, format!("prints {text:?}, the calls say {want:?}"));
        }
        if bytes.len() > READS && !want.starts_with("refused ") {
            tally.fail(case, bytes, format!("too long for a valid file, and the calls say {want:?}"));
        }
    }

    /// All bytes at once through a pipe. A program that has read enough may be gone before the last of them.
    fn whole(&mut self, case: &str, bytes: &[u8], tally: &mut Tally) {
        let mut child = self.spawn(Stdio::piped());
        let _ = child.stdin.take().unwrap().write_all(bytes);
        self.hold(child, case, bytes, tally);
    }

    /// In pieces of at most `most` bytes, each of which is one read of the program.
    fn pieces(&mut self, case: &str, bytes: &[u8], most: usize, random: &mut Random, tally: &mut Tally) {
        let (mut ours, theirs) = records();
        let child = self.spawn(Stdio::from(theirs));
        let mut rest = bytes;
        while !rest.is_empty() {
            let n = (1 + random.below(most)).min(rest.len());
            if ours.write_all(&rest[..n]).is_err() {
                break;
            }
            rest = &rest[n..];
        }
        drop(ours);
        self.hold(child, case, bytes, tally);
    }
}

fn program_files(program: &mut Program, random: &mut Random, tally: &mut Tally) {
    for number in 0..PROGRAM_CASES {
        let bytes = file(random);
        program.whole(&format!("program case {number}"), &bytes, tally);
    }
    println!("files through the program: {PROGRAM_CASES}");
    for number in 0..PIECE_CASES {
        let bytes = file(random);
        let most = if number % 3 == 2 { 7 } else { 1 };
        program.pieces(&format!("pieces case {number}"), &bytes, most, random, tally);
    }
    println!("files in pieces, two of three in pieces of one byte, each a read of its own: {PIECE_CASES}");
}

fn program_odd(program: &mut Program, at: &str, random: &mut Random, tally: &mut Tally) {
    let mut odd = 0;
    let mut longest = Table { root: 16383, paths: Vec::new(), required: Vec::new(), rules: vec![[1, 0, 0]; 256] };
    longest.paths = (1..64).map(|x| (0, 16383 - x)).collect();
    longest.required = (1..64).collect();
    let valid = longest.file();
    program.whole("the longest valid file", &valid, tally);
    tally.hold(valid.len() == 1026, "the longest valid file", &valid, "its length", &program.calls.rewrite(&valid, ENOUGH));
    let mega = 1 << 20;
    let mut long = vec![vec![0; mega], vec![255; 4 * mega], vec![128; 2 * mega], vec![1; 3 * mega], random.bytes(8 * mega)];
    for byte in [0, 1, 3, 255] {
        let mut more = valid.clone();
        more.resize(2 * mega, byte);
        long.push(more);
    }
    for more in [READS - 1, READS, READS + 1, 2 * READS, 65536, 65537] {
        let mut to = valid.clone();
        to.resize(more, 0);
        long.push(to);
    }
    for bytes in &long {
        program.whole("megabytes", bytes, tally);
    }
    odd += 1 + long.len();
    let start = |script: &str, path: &str| {
        let mut command = Command::new("sh");
        command.args(["-c", script, path]).stdout(Stdio::piped()).stderr(Stdio::piped());
        command.spawn().expect("a shell starts")
    };
    for script in ["exec \"$0\" <&-", "exec \"$0\" <.", ": | \"$0\""] {
        let child = start(script, program.path);
        program.hold(child, script, &[], tally);
    }
    let child = program.spawn(Stdio::null());
    program.hold(child, "nothing on standard input", &[], tally);
    let closed = std::fs::OpenOptions::new().write(true).open(at).expect("a file to write");
    let child = program.spawn(Stdio::from(closed));
    program.hold(child, "standard input that cannot be read", &[], tally);
    program.whole("an empty pipe", &[], tally);
    program.pieces("no piece", &[], 1, random, tally);
    odd += 7;
    println!("megabytes, closed, empty and unreadable standard input: {odd}");
}

fn main() {
    let args: Vec<String> = std::env::args().collect();
    let seed = args[3].parse().expect("a seed");
    println!("seed {seed}");
    let at = File::create(&args[2]).expect("the file of the case at hand");
    let mut tally = Tally::default();
    archive(seed, &at, &mut tally);
    println!("files through the calls of the archive: {ARCHIVE_CASES}");
    let mut program = Program { path: &args[1], calls: Calls::new(1 << 23) };
    let mut random = Random(seed + 1);
    program_files(&mut program, &mut random, &mut tally);
    program_odd(&mut program, &args[2], &mut random, &mut tally);
    for (what, n) in &tally.counts {
        println!("  {what}: {n}");
    }
    println!("failures: {}", tally.failures);
    exit((tally.failures > 0) as i32);
}
