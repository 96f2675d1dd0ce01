//! vectors FILE: runs the plain program over the vectors of an independent program and says how many agree.

use plain::{Check, Refusal, Reply, Verdict};
use std::collections::BTreeMap;
use std::fmt::Write;

fn bytes(hex: &str) -> Vec<u8> {
    if hex == "-" {
        return Vec::new();
    }
    let digits = hex.as_bytes().chunks(2);
    digits.map(|pair| u8::from_str_radix(std::str::from_utf8(pair).unwrap(), 16).unwrap()).collect()
}

fn numbers(bytes: &[u8]) -> Vec<usize> {
    let mut found = Vec::new();
    let mut rest = bytes.iter();
    while let Some(&low) = rest.next() {
        found.push(if low < 128 { low as usize } else { (low & 127) as usize | (*rest.next().unwrap() as usize) << 7 });
    }
    found
}

fn words(word: &str, bytes: &[u8]) -> String {
    numbers(bytes).iter().fold(word.to_string(), |line, n| line + " " + &n.to_string())
}

fn refused(r: Refusal) -> String {
    format!("refused {} {}", r.number, r.offset)
}

/// What the verdict program prints, each line feed shown as |.
fn listing(rules: &[u8], out: &mut [u8]) -> String {
    match plain::consistency_bytes(rules, out) {
        Err(r) => refused(r) + "|",
        Ok(Verdict::Inconsistent(n)) => words("inconsistent", &out[..n]) + "|",
        Ok(Verdict::Consistent(n)) => {
            let document = numbers(&out[..n]);
            let mut text = format!("consistent {}|", document[0]);
            let mut at = 1;
            for part in 0..document[0] {
                write!(text, "{part} {}", document[at]).unwrap();
                let children = document[at + 1];
                at += 2;
                for child in &document[at..at + children] {
                    write!(text, " {child}").unwrap();
                }
                at += children;
                text.push('|');
            }
            text
        }
    }
}

fn answer(call: &[&str], out: &mut [u8]) -> String {
    let rules = bytes(call[1]);
    match call[0] {
        "read" => match plain::rewrite_bytes(&rules, out) {
            Ok(n) => out[..n].iter().fold("ok ".to_string(), |line, b| line + &format!("{b:02x}")),
            Err(r) => refused(r),
        },
        "verdict" => listing(&rules, out),
        "consistent" => match plain::consistency_bytes(&rules, out) {
            Ok(Verdict::Consistent(n)) => words("consistent", &out[..n]),
            Ok(Verdict::Inconsistent(n)) => words("inconsistent", &out[..n]),
            Err(r) => refused(r),
        },
        "ask" => {
            let asked: Vec<usize> = call[2..].iter().map(|n| n.parse().unwrap()).collect();
            match plain::ask_bytes(&rules, asked[0], asked[1], asked[2], out) {
                Ok(Reply::Yes(n)) => words("yes", &out[..n]),
                Ok(Reply::No(n)) => words("no", &out[..n]),
                Err(r) => refused(r),
            }
        }
        "check" => match plain::check_bytes(&rules, &bytes(call[2])) {
            Ok(Check::Obeys) => "obeys".to_string(),
            Ok(Check::Broken { rule, part }) => format!("broken {rule} {part}"),
            Ok(Check::Missing { path }) => format!("missing {path}"),
            Err(r) => refused(r),
        },
        other => panic!("no such call: {other}"),
    }
}

fn main() {
    let file = std::env::args().nth(1).expect("usage: vectors FILE");
    let text = std::fs::read_to_string(&file).expect("the file of vectors");
    let mut seen: BTreeMap<&str, (usize, usize)> = BTreeMap::new();
    let mut out = vec![0; plain::DOCUMENT_BYTES];
    for line in text.lines().filter(|line| !line.starts_with('#') && !line.is_empty()) {
        let (call, wanted) = line.split_once(" = ").expect("a call and its answer");
        let call: Vec<&str> = call.split(' ').collect();
        let got = answer(&call, &mut out);
        let (agree, all) = seen.entry(call[0]).or_default();
        *all += 1;
        if got == wanted {
            *agree += 1;
        } else {
            println!("differs: {}\n  wanted {wanted}\n  got    {got}", call.join(" "));
        }
    }
    let mut differ = 0;
    for (call, (agree, all)) in &seen {
        println!("{call}: {agree} of {all} agree");
        differ += all - agree;
    }
    std::process::exit((differ > 0) as i32);
}
