//! The inputs that are measured: rule files and documents, made from fixed seeds, all valid.

use plain::{Verdict, DEPTH, PARTS, PATHS, RULES};

/// Numbers that look random and are the same in every run.
pub struct Random(pub u64);

impl Random {
    pub fn next(&mut self) -> u64 {
        self.0 = self.0.wrapping_add(0x9e37_79b9_7f4a_7c15);
        let mut z = self.0;
        z = (z ^ z >> 30).wrapping_mul(0xbf58_476d_1ce4_e5b9);
        z = (z ^ z >> 27).wrapping_mul(0x94d0_49bb_1331_11eb);
        z ^ z >> 31
    }

    pub fn below(&mut self, n: usize) -> usize {
        (self.next() % n as u64) as usize
    }

    pub fn chance(&mut self, percent: usize) -> bool {
        self.below(100) < percent
    }
}

pub const IMPLICATION: usize = 1;
pub const ABSENCE: usize = 2;
pub const CO_OCCURRENCE: usize = 3;

/// A rule set in the making.
#[derive(Clone)]
pub struct Set {
    pub parents: Vec<usize>, // parents[0] says nothing
    pub labels: Vec<usize>,
    pub required: Vec<usize>,
    pub rules: Vec<(usize, usize, usize)>,
}

fn put(bytes: &mut Vec<u8>, n: usize) {
    if n < 128 {
        bytes.push(n as u8);
    } else {
        bytes.extend([(n & 127 | 128) as u8, (n >> 7) as u8]);
    }
}

pub fn encode(numbers: &[usize]) -> Vec<u8> {
    let mut bytes = Vec::new();
    numbers.iter().for_each(|&n| put(&mut bytes, n));
    bytes
}

pub fn decode(bytes: &[u8]) -> Vec<usize> {
    let mut numbers = Vec::new();
    let mut rest = bytes.iter();
    while let Some(&low) = rest.next() {
        numbers.push(if low < 128 {
            low as usize
        } else {
            low as usize - 128 + ((*rest.next().unwrap() as usize) << 7)
        });
    }
    numbers
}

impl Set {
    pub fn new(parents: Vec<usize>) -> Set {
        let labels = (0..parents.len()).map(|x| 100 + x).collect();
        Set { parents, labels, required: Vec::new(), rules: Vec::new() }
    }

    pub fn bytes(&self) -> Vec<u8> {
        let mut numbers = vec![self.parents.len(), self.labels[0]];
        for (&parent, &label) in self.parents.iter().zip(&self.labels).skip(1) {
            numbers.extend([parent, label]);
        }
        numbers.push(self.required.len());
        numbers.extend(&self.required);
        numbers.push(self.rules.len());
        for &(kind, left, right) in &self.rules {
            numbers.extend([kind, left, right]);
        }
        encode(&numbers)
    }

    pub fn first_rules(&self, count: usize) -> Set {
        let mut set = self.clone();
        set.rules.truncate(count);
        set
    }
}

/// How the parents of a random tree are drawn.
#[derive(Clone, Copy, Debug)]
pub enum Shape {
    Even,  // any earlier path
    Deep,  // one of the last few
    Wide,  // mostly the root and its first children
    Spine, // seven paths one below the other, the rest under the last
}

pub const SHAPES: [Shape; 4] = [Shape::Even, Shape::Deep, Shape::Wide, Shape::Spine];

pub fn tree(random: &mut Random, paths: usize, shape: Shape) -> Vec<usize> {
    let mut parents = vec![0];
    let mut depth = vec![1];
    for x in 1..paths {
        let mut parent = match shape {
            Shape::Even => random.below(x),
            Shape::Deep => x - 1 - random.below(x.min(4)),
            Shape::Wide => random.below(x.min(5)),
            Shape::Spine => (x - 1).min(DEPTH - 2),
        };
        while depth[parent] == DEPTH {
            parent = parents[parent];
        }
        parents.push(parent);
        depth.push(depth[parent] + 1);
    }
    parents
}

/// A random set. Of a hundred rules so many are absences and so many co-occurrences; `near` of a hundred join paths
/// whose numbers are close.
#[derive(Clone, Copy, Debug)]
pub struct Recipe {
    pub shape: Shape,
    pub absences: usize,
    pub both_ways: usize,
    pub near: usize,
    pub required: usize,
}

pub fn random_set(random: &mut Random, paths: usize, rules: usize, recipe: Recipe) -> Set {
    let mut set = Set::new(tree(random, paths, recipe.shape));
    set.required = (1..paths).filter(|_| random.chance(recipe.required)).collect();
    for _ in 0..rules {
        let kind = if random.chance(recipe.absences) {
            ABSENCE
        } else if random.chance(recipe.both_ways) {
            CO_OCCURRENCE
        } else {
            IMPLICATION
        };
        let left = random.below(paths);
        let right =
            if random.chance(recipe.near) { (left + 1 + random.below(4)).min(paths - 1) } else { random.below(paths) };
        set.rules.push((kind, left, right));
    }
    set
}

/// A recipe drawn at random, for searches.
pub fn random_recipe(random: &mut Random) -> Recipe {
    Recipe {
        shape: SHAPES[random.below(SHAPES.len())],
        absences: [0, 1, 2, 5, 10, 33][random.below(6)],
        both_ways: [0, 5, 33, 50][random.below(4)],
        near: [0, 50, 90, 100][random.below(4)],
        required: [0, 3, 10, 50, 100][random.below(5)],
    }
}

/// A random set that is consistent: a rule that would make it inconsistent is drawn again, as an implication.
pub fn consistent_set(random: &mut Random, paths: usize, rules: usize, recipe: Recipe) -> Set {
    let drawn = random_set(random, paths, rules, recipe);
    let mut set = Set { rules: Vec::new(), ..drawn.clone() };
    let mut out = vec![0; plain::DOCUMENT_BYTES];
    for rule in drawn.rules {
        set.rules.push(rule);
        while !matches!(plain::consistency_bytes(&set.bytes(), &mut out), Ok(Verdict::Consistent(_))) {
            let x = random.below(paths);
            *set.rules.last_mut().unwrap() = (IMPLICATION, x, set.parents[x]);
        }
    }
    set
}

/// The listing of the scope: five paths, three rules.
pub fn listing() -> Set {
    let mut set = Set::new(vec![0, 0, 1, 1, 0]);
    set.labels = vec![10, 11, 12, 13, 14];
    set.required = vec![2];
    set.rules = vec![(1, 2, 4), (1, 4, 3), (2, 2, 3)];
    set
}

/// 64 paths, 256 rules, and the most parts that a document handed back can have: path 1 under the root, beside it a spine
/// of six paths with 56 leaves under the last. Path 1 calls for every leaf but the last, and no two leaves of some pairs
/// may stand together.
pub fn spine() -> Set {
    let mut parents = vec![0, 0, 0];
    parents.extend(2..7);
    parents.resize(PATHS, 7);
    let mut set = Set::new(parents);
    set.required = (8..PATHS).collect();
    for leaf in 8..PATHS - 1 {
        set.rules.push((IMPLICATION, 1, leaf));
    }
    let mut random = Random(1);
    while set.rules.len() < RULES {
        let (left, right) = (8 + random.below(56), 8 + random.below(56));
        if left != right {
            set.rules.push((ABSENCE, left, right));
        }
    }
    set
}

/// All paths under the root, an implication from each to the next, and rules that make no walk shorter.
pub fn chain() -> Set {
    let mut set = Set::new(vec![0; PATHS]);
    for x in 1..PATHS - 1 {
        set.rules.push((IMPLICATION, x, x + 1));
    }
    let mut random = Random(2);
    while set.rules.len() < RULES {
        let (a, b) = (1 + random.below(PATHS - 1), 1 + random.below(PATHS - 1));
        set.rules.push((IMPLICATION, a.max(b), a.min(b)));
    }
    set
}

/// The chain up to path 62, of which the last two exclude each other by the last rule: all but 0 and 63 are dead.
pub fn dead_chain() -> Set {
    let mut set = chain();
    set.rules.retain(|&(_, left, right)| left < PATHS - 1 && right < PATHS - 1);
    set.rules.truncate(RULES - 1);
    let mut random = Random(3);
    while set.rules.len() < RULES - 1 {
        let (a, b) = (1 + random.below(PATHS - 2), 1 + random.below(PATHS - 2));
        set.rules.push((IMPLICATION, a.max(b), a.min(b)));
    }
    set.rules.push((ABSENCE, 61, 62));
    set
}

/// Two chains, 1 to 20 and 21 to 40, whose ends exclude each other by the last rule; the other absences concern 41 to 63.
pub fn two_chains() -> Set {
    let mut set = Set::new(vec![0; PATHS]);
    for x in (1..20).chain(21..40) {
        set.rules.push((IMPLICATION, x, x + 1));
    }
    let mut random = Random(4);
    while set.rules.len() < RULES - 1 {
        let (left, right) = (1 + random.below(PATHS - 1), 41 + random.below(PATHS - 41));
        if left != right {
            set.rules.push((ABSENCE, left, right));
        }
    }
    set.rules.push((ABSENCE, 20, 40));
    set
}

/// Seven paths one below the other, 57 leaves under the last, and a ring of implications through all leaves, given again and
/// again: from every path every leaf is reachable, by walks as long as they can be.
pub fn ring() -> Set {
    let mut set = Set::new(tree(&mut Random(0), PATHS, Shape::Spine));
    let once: Vec<_> = (6..PATHS).map(|x| (IMPLICATION, x, if x + 1 < PATHS { x + 1 } else { 7 })).collect();
    set.rules = once.into_iter().cycle().take(RULES).collect();
    set
}

/// The document handed back for a consistent set.
pub fn witness(rules: &[u8]) -> Vec<u8> {
    let mut out = vec![0; plain::DOCUMENT_BYTES];
    match plain::consistency_bytes(rules, &mut out) {
        Ok(Verdict::Consistent(n)) => out[..n].to_vec(),
        other => panic!("not consistent: {other:?}"),
    }
}

/// The parts of a document: path and children.
pub fn parts(document: &[u8]) -> Vec<(usize, Vec<usize>)> {
    let numbers = decode(document);
    let mut at = 1;
    let part = |_| {
        let (path, many) = (numbers[at], numbers[at + 1]);
        let children = numbers[at + 2..at + 2 + many].to_vec();
        at += 2 + many;
        (path, children)
    };
    (0..numbers[0]).map(part).collect()
}

pub fn document(parts: &[(usize, Vec<usize>)]) -> Vec<u8> {
    let mut numbers = vec![parts.len()];
    for (path, children) in parts {
        numbers.extend([*path, children.len()]);
        numbers.extend(children);
    }
    encode(&numbers)
}

/// The same document with more parts: its childless parts again, under the same parents. It obeys what the first obeys.
pub fn padded(bytes: &[u8], count: usize) -> Vec<u8> {
    let mut parts = parts(bytes);
    let leaves: Vec<usize> = (1..parts.len()).filter(|&n| parts[n].1.is_empty()).collect();
    for turn in 0..count - parts.len() {
        let leaf = leaves[turn % leaves.len()];
        let copy = parts.len();
        for (_, children) in &mut parts {
            if children.contains(&leaf) {
                children.push(copy);
            }
        }
        parts.push((parts[leaf].0, Vec::new()));
    }
    document(&parts)
}

/// A valid document of the table: each part on a random path, named by some earlier parts on the path's parent.
pub fn random_document(random: &mut Random, parents: &[usize], count: usize) -> Vec<u8> {
    let mut parts: Vec<(usize, Vec<usize>)> = vec![(0, Vec::new())];
    while parts.len() < count && parents.len() > 1 {
        let path = 1 + random.below(parents.len() - 1);
        let part = parts.len();
        let above: Vec<usize> = (0..part).filter(|&n| parts[n].0 == parents[path]).collect();
        if above.is_empty() {
            continue;
        }
        let first = above[random.below(above.len())];
        for namer in above {
            if namer == first || random.chance(20) {
                parts[namer].1.push(part);
            }
        }
        parts.push((path, Vec::new()));
    }
    document(&parts)
}

/// 512 parts and close to 65,536 bytes: parts on `upper`, a path under the root, that each name many parts on `lower`, a
/// path under it.
pub fn dense_document(upper: usize, lower: usize) -> Vec<u8> {
    let (middle, last) = (255, PARTS);
    let mut parts: Vec<(usize, Vec<usize>)> = vec![(0, (1..=middle).collect())];
    let mut room = 65_536 - 2 - 3 - (127 + 2 * (middle - 127)) - 3 * middle - 2 * (last - 1 - middle);
    for _ in 0..middle {
        let many = (last - 1 - middle).min(room / 2);
        room -= 2 * many;
        parts.push((upper, (middle + 1..middle + 1 + many).collect()));
    }
    parts.resize(last, (lower, Vec::new()));
    document(&parts)
}
