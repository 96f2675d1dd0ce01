// tests/vectors runs this: vectors FILE PROGRAM.
mod calls;
use calls::{put_number, tight, Calls, Left, ENOUGH};
use std::collections::BTreeMap;
use std::io::Write;
use std::process::{exit, Command, Stdio};

fn bytes(hex: &str) -> Vec<u8> {
    if hex == "-" {
        return Vec::new();
    }
    (0..hex.len() / 2).map(|i| u8::from_str_radix(&hex[2 * i..2 * i + 2], 16).expect("hex")).collect()
}

fn printed(program: &str, rules: &[u8]) -> String {
    let mut child = Command::new(program).stdin(Stdio::piped()).stdout(Stdio::piped()).spawn().expect("the program starts");
    // a program that has read enough may be gone before the last byte
    let _ = child.stdin.take().unwrap().write_all(rules);
    let done = child.wait_with_output().expect("the program ends");
    let text = String::from_utf8_lossy(&done.stdout).replace('\n', "|");
    if done.status.success() { text } else { format!("{text} ({})", done.status) }
}

/// An answer of the vectors as three numbers and bytes. `words` are those of its cases, from 1 on. Where the call writes, the
/// answer's numbers are the bytes; else they are the values.
fn wanted(answer: &str, words: &[&str], writes: bool) -> Left {
    let mut parts = answer.split(' ');
    let word = parts.next().unwrap();
    let values: Vec<usize> = parts.map(|v| v.parse().expect("a number")).collect();
    let value = |i: usize| values.get(i).copied().unwrap_or(0);
    let mut bytes = Vec::new();
    let answer = match words.iter().position(|&w| w == word) {
        Some(i) if writes => {
            values.iter().for_each(|&v| put_number(v, &mut bytes));
            [i + 1, bytes.len(), 0]
        }
        Some(i) => [i + 1, value(0), value(1)],
        None if word == "refused" => [0, value(0), value(1)],
        None => panic!("no such answer: {answer}"),
    };
    Left { answer, bytes, wrong: Vec::new() }
}

/// What differs, if anything, and whether the answer was asked for again with less room.
struct Seen {
    wrong: Vec<String>,
    again: bool,
}

impl Seen {
    fn compare(got: &Left, want: &Left) -> Seen {
        let wrong = if got == want { Vec::new() } else { vec![format!("wanted {want:?}, got {got:?}")] };
        Seen { wrong, again: false }
    }

    /// A call that writes, by the room that it is lent.
    fn written(mut call: impl FnMut(usize) -> Left, want: &Left) -> Seen {
        let got = call(ENOUGH);
        let mut seen = Seen::compare(&got, want);
        if got.answer[0] != 0 {
            seen.again = true;
            seen.wrong.extend(tight(&got, call));
        }
        seen
    }
}

fn run(call: &str, answer: &str, calls: &mut Calls, program: &str) -> Seen {
    let words: Vec<&str> = call.split(' ').collect();
    let rules = bytes(words[1]);
    let n = |i: usize| words[i].parse::<usize>().expect("a number");
    match words[0] {
        "read" => {
            let want = match answer.strip_prefix("ok ").map(bytes) {
                Some(file) => Left { answer: [1, file.len(), 0], bytes: file, wrong: Vec::new() },
                None => wanted(answer, &[], true),
            };
            Seen::written(|room| calls.rewrite(&rules, room), &want)
        }
        "check" => Seen::compare(&calls.check(&rules, &bytes(words[2])), &wanted(answer, &["obeys", "broken", "missing"], false)),
        "consistent" => {
            let want = wanted(answer, &["consistent", "inconsistent"], true);
            Seen::written(|room| calls.consistency(&rules, room), &want)
        }
        "ask" => {
            let want = wanted(answer, &["yes", "no"], true);
            Seen::written(|room| calls.ask(&rules, n(2), n(3), n(4), room), &want)
        }
        "verdict" => {
            let got = printed(program, &rules);
            let wrong = if got == answer { Vec::new() } else { vec![format!("wanted {answer}, got {got}")] };
            Seen { wrong, again: false }
        }
        other => panic!("no such call: {other}"),
    }
}

fn main() {
    let args: Vec<String> = std::env::args().collect();
    let text = std::fs::read_to_string(&args[1]).expect("a file of vectors");
    let mut calls = Calls::new(1 << 20);
    let mut counts: BTreeMap<&str, (usize, usize)> = BTreeMap::new();
    let (mut differing, mut again) = (0, 0);
    for line in text.lines().filter(|l| !l.is_empty() && !l.starts_with('#')) {
        let (call, answer) = line.split_once(" = ").expect("CALL ARGS = ANSWER");
        let seen = run(call, answer, &mut calls, &args[2]);
        let (all, agree) = counts.entry(call.split(' ').next().unwrap()).or_default();
        *all += 1;
        *agree += seen.wrong.is_empty() as usize;
        again += seen.again as usize;
        if !seen.wrong.is_empty() {
            differing += 1;
            println!("differs: {call}");
            seen.wrong.iter().for_each(|w| println!("  {w}"));
        }
    }
    for (call, (all, agree)) in &counts {
        println!("{call}: {agree} of {all} agree");
    }
    println!("written answers asked for again, with exactly their room and with one byte less: {again}");
    exit((differing > 0) as i32);
}
