// The calls of the archive from Rust. Every slice lent to a call ends right before a page that must not be touched, and stands
// after bytes that must stay as they are.
#![allow(dead_code)]
#[path = "entry.rs"]
mod entry;

use entry::*;
use std::slice;

extern "C" {
    fn mmap(at: *mut u8, size: usize, protection: i32, flags: i32, file: i32, offset: i64) -> *mut u8;
    fn mprotect(at: *mut u8, size: usize, protection: i32) -> i32;
}

const PAGE: usize = 4096;
const CANARY: u8 = 0xA5;
const FILL: u8 = 0x5A;

/// Memory between two pages that must not be touched. What is lent is its end; what stands before that is canaries.
pub struct Room {
    start: *mut u8,
    size: usize,
}

impl Room {
    pub fn new(size: usize) -> Room {
        let size = size.div_ceil(PAGE) * PAGE;
        unsafe {
            // read and write, private, anonymous
            let base = mmap(std::ptr::null_mut(), size + 2 * PAGE, 3, 0x22, -1, 0);
            assert!(base as isize != -1, "no memory");
            assert_eq!(mprotect(base, PAGE, 0), 0);
            assert_eq!(mprotect(base.add(PAGE + size), PAGE, 0), 0);
            let start = base.add(PAGE);
            slice::from_raw_parts_mut(start, size).fill(CANARY);
            Room { start, size }
        }
    }

    fn lend(&mut self, len: usize) -> *mut u8 {
        assert!(len <= self.size, "a driver's room is too small");
        unsafe { self.start.add(self.size - len) }
    }

    /// The last `len` bytes, filled.
    fn lend_filled(&mut self, len: usize) -> *mut u8 {
        let p = self.lend(len);
        unsafe { slice::from_raw_parts_mut(p, len).fill(FILL) };
        p
    }

    /// A copy of bytes at the end.
    fn lend_copy(&mut self, bytes: &[u8]) -> *mut u8 {
        let p = self.lend(bytes.len());
        unsafe { slice::from_raw_parts_mut(p, bytes.len()).copy_from_slice(bytes) };
        p
    }

    fn last(&self, len: usize) -> &[u8] {
        unsafe { slice::from_raw_parts(self.start.add(self.size - len), len) }
    }

    /// Whether the canaries before the last `len` bytes stand; the lent bytes are made canaries again.
    fn back(&mut self, len: usize) -> bool {
        let whole = unsafe { slice::from_raw_parts_mut(self.start, self.size) };
        let (before, lent) = whole.split_at_mut(self.size - len);
        lent.fill(CANARY);
        // the canaries near the lent bytes: a page and more
        before.iter().rev().take(2 * PAGE).all(|&b| b == CANARY)
    }
}

/// What a call left: the three numbers, the bytes of an accepted answer, and what it did that it must not.
#[derive(Clone, PartialEq, Debug)]
pub struct Left {
    pub answer: [usize; 3],
    pub bytes: Vec<u8>,
    pub wrong: Vec<&'static str>,
}

/// The rooms that are lent to the calls.
pub struct Calls {
    rules: Room,
    document: Room,
    out: Room,
    answer: Room,
}

pub const ENOUGH: usize = 65536;

impl Calls {
    /// Rooms for inputs up to so many bytes.
    pub fn new(input: usize) -> Calls {
        Calls {
            rules: Room::new(input),
            document: Room::new(input),
            out: Room::new(ENOUGH),
            answer: Room::new(PAGE),
        }
    }

    /// Lends a call copies of its input and so much room; `writes` are the answers whose first value is a length.
    fn run(
        &mut self,
        rules: &[u8],
        document: &[u8],
        room: usize,
        writes: &[usize],
        call: impl Fn(*const u8, *const u8, *mut u8, *mut [usize; 3]),
    ) -> Left {
        let r = self.rules.lend_copy(rules);
        let d = self.document.lend_copy(document);
        let out = self.out.lend_filled(room);
        let answer = self.answer.lend_filled(24) as *mut [usize; 3];
        call(r, d, out, answer);
        let answer = unsafe { *answer };
        let left = self.out.last(room);
        let mut wrong = Vec::new();
        let length = if writes.contains(&answer[0]) { answer[1] } else { 0 };
        let bytes = if length <= room { left[..length].to_vec() } else { Vec::new() };
        if length > room {
            wrong.push("a length longer than the buffer");
        } else if left[length..].iter().any(|&b| b != FILL) {
            wrong.push("a byte after the answer changed");
        }
        if self.rules.last(rules.len()) != rules {
            wrong.push("the rule file changed");
        }
        if self.document.last(document.len()) != document {
            wrong.push("the document changed");
        }
        let stand = [
            self.rules.back(rules.len()),
            self.document.back(document.len()),
            self.out.back(room),
            self.answer.back(24),
        ];
        if stand != [true; 4] {
            wrong.push("a byte that was not lent changed");
        }
        Left { answer, bytes, wrong }
    }

    pub fn rewrite(&mut self, rules: &[u8], room: usize) -> Left {
        self.run(rules, &[], room, &[1], |r, _, out, answer| unsafe { bozdurmek_rewrite(r, rules.len(), out, room, answer) })
    }

    pub fn check(&mut self, rules: &[u8], document: &[u8]) -> Left {
        self.run(rules, document, 0, &[], |r, d, _, answer| unsafe {
            bozdurmek_check(r, rules.len(), d, document.len(), answer)
        })
    }

    pub fn consistency(&mut self, rules: &[u8], room: usize) -> Left {
        self.run(rules, &[], room, &[1, 2], |r, _, out, answer| unsafe {
            bozdurmek_consistency(r, rules.len(), out, room, answer)
        })
    }

    pub fn ask(&mut self, rules: &[u8], kind: usize, left: usize, right: usize, room: usize) -> Left {
        self.run(rules, &[], room, &[1, 2], |r, _, out, answer| unsafe {
            bozdurmek_ask(r, rules.len(), kind, left, right, out, room, answer)
        })
    }
}

/// A written answer, asked for again with exactly its room and with one byte less: what is wrong with either.
pub fn tight(written: &Left, mut again: impl FnMut(usize) -> Left) -> Vec<String> {
    let n = written.bytes.len();
    let mut wrong = Vec::new();
    let exact = again(n);
    if exact != *written {
        wrong.push(format!("in {n} bytes, exactly enough: {:?}", exact.answer));
    }
    if n > 0 {
        let short = again(n - 1);
        if short.answer != [0, 20, 0] || !short.wrong.is_empty() {
            wrong.push(format!("in {} bytes, one too few: {:?} {:?}", n - 1, short.answer, short.wrong));
        }
    }
    wrong
}

/// A number as a file has it.
pub fn put_number(n: usize, to: &mut Vec<u8>) {
    if n < 128 {
        to.push(n as u8);
    } else {
        to.push((n % 128) as u8 | 128);
        to.push((n / 128) as u8);
    }
}

/// The numbers of a file, or nothing where the bytes are not whole numbers.
pub fn numbers(bytes: &[u8]) -> Option<Vec<usize>> {
    let mut all = Vec::new();
    let mut i = 0;
    while i < bytes.len() {
        let low = bytes[i] as usize;
        i += 1;
        if low < 128 {
            all.push(low);
        } else {
            let high = *bytes.get(i)? as usize;
            i += 1;
            if high == 0 || high > 127 {
                return None;
            }
            all.push(low - 128 + 128 * high);
        }
    }
    Some(all)
}

pub fn hex(bytes: &[u8]) -> String {
    bytes.iter().map(|b| format!("{b:02x}")).collect()
}
