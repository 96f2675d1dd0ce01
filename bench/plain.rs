//! The rule desk in plain Rust, with nothing proved: rule files, documents, consistency, questions.
//!
//! It gives the same answers, bytes and refusals as the proved library and is what that library is measured against.
//! Sets of paths are 64-bit words. A call works out every reachable set at most once, allocates nothing, and writes its
//! answer to a buffer lent by the caller, which it leaves alone if it refuses.

pub const PATHS: usize = 64;
pub const RULES: usize = 256;
pub const DEPTH: usize = 8;
pub const PARTS: usize = 512;
pub const LABEL: usize = 16_383;
pub const DOCUMENT_BYTES: usize = 65_536;

/// Why a call gave no answer: one of the numbers 1 to 20, and the byte where it was met (0 if none).
#[derive(Clone, Copy, Debug, PartialEq, Eq)]
pub struct Refusal {
    pub number: u8,
    pub offset: usize,
}

pub type Answer<T> = Result<T, Refusal>;

fn refuse<T>(number: u8, offset: usize) -> Answer<T> {
    Err(Refusal { number, offset })
}

// ---------------------------------------------------------------------------------------------- sets of paths

fn bit(x: usize) -> u64 {
    1 << x
}

fn has(set: u64, x: usize) -> bool {
    set >> x & 1 == 1
}

fn lowest(set: u64) -> usize {
    set.trailing_zeros() as usize
}

fn highest(set: u64) -> usize {
    63 - set.leading_zeros() as usize
}

/// The members of a set, lowest first.
struct Members(u64);

impl Iterator for Members {
    type Item = usize;

    fn next(&mut self) -> Option<usize> {
        if self.0 == 0 {
            return None;
        }
        let x = lowest(self.0);
        self.0 &= self.0 - 1;
        Some(x)
    }
}

/// Turns row x, column y into row y, column x, for a square of `size` rows (a power of two).
fn transpose(rows: &mut [u64; 64], size: usize) {
    let mut width = size / 2;
    while width > 0 {
        let mask = u64::MAX / ((1 << width) + 1);
        for block in rows[..size].chunks_exact_mut(2 * width) {
            let (low, high) = block.split_at_mut(width);
            for (a, b) in low.iter_mut().zip(high) {
                let swap = (*a >> width ^ *b) & mask;
                *a ^= swap << width;
                *b ^= swap;
            }
        }
        width /= 2;
    }
}

// ---------------------------------------------------------------------------------------------- numbers

/// Takes numbers from bytes, one after the other.
struct Reader<'a> {
    bytes: &'a [u8],
    at: usize,
}

impl<'a> Reader<'a> {
    fn new(bytes: &'a [u8], at: usize) -> Self {
        Reader { bytes, at }
    }

    #[inline(always)]
    fn number(&mut self) -> Answer<usize> {
        match (self.bytes.get(self.at), self.bytes.get(self.at + 1)) {
            (Some(&low @ 0..=127), _) => {
                self.at += 1;
                Ok(low as usize)
            }
            (Some(&low), Some(&high @ 1..=127)) => {
                self.at += 2;
                Ok((low & 127) as usize | (high as usize) << 7)
            }
            (Some(_), Some(_)) => refuse(2, self.at),
            _ => refuse(1, self.at),
        }
    }

    /// The next number if `fault` finds none in it; a fault is a refusal at the number's first byte.
    #[inline(always)]
    fn tested(&mut self, fault: impl FnOnce(usize) -> Option<u8>) -> Answer<usize> {
        let offset = self.at;
        let value = self.number()?;
        match fault(value) {
            Some(number) => refuse(number, offset),
            None => Ok(value),
        }
    }

    fn end(&self) -> Answer<()> {
        if self.at == self.bytes.len() {
            Ok(())
        } else {
            refuse(11, self.at)
        }
    }
}

/// How many bytes a number takes.
fn size(value: usize) -> usize {
    1 + (value > 127) as usize
}

/// Puts numbers into bytes, one after the other. The bytes have room: their length was worked out before.
struct Writer<'a> {
    bytes: &'a mut [u8],
    at: usize,
}

impl<'a> Writer<'a> {
    /// Over the first `length` bytes of `out`, or refusal 20.
    fn new(out: &'a mut [u8], length: usize) -> Answer<Self> {
        match out.get_mut(..length) {
            Some(bytes) => Ok(Writer { bytes, at: 0 }),
            None => refuse(20, 0),
        }
    }

    #[inline(always)]
    fn put(&mut self, value: usize) {
        if value < 128 {
            self.bytes[self.at] = value as u8;
            self.at += 1;
        } else {
            self.bytes[self.at] = value as u8 | 128;
            self.bytes[self.at + 1] = (value >> 7) as u8;
            self.at += 2;
        }
    }
}

// ---------------------------------------------------------------------------------------------- rule files

#[derive(Clone, Copy, Debug, PartialEq, Eq)]
#[repr(u8)]
pub enum Kind {
    Implication = 1,
    Absence = 2,
    CoOccurrence = 3,
}

impl Kind {
    fn of(number: usize) -> Option<Kind> {
        match number {
            1 => Some(Kind::Implication),
            2 => Some(Kind::Absence),
            3 => Some(Kind::CoOccurrence),
            _ => None,
        }
    }
}

#[derive(Clone, Copy, Debug, PartialEq, Eq)]
pub struct Rule {
    pub kind: Kind,
    left: u8,
    right: u8,
}

impl Rule {
    pub fn left(self) -> usize {
        self.left as usize
    }

    pub fn right(self) -> usize {
        self.right as usize
    }
}

/// A table of paths, the required ones, and the rules. The fields are private, so that every value is a valid table.
#[derive(Clone)]
pub struct Rules {
    paths: usize,
    parent: [u8; PATHS],
    name: [u32; PATHS], // parent and label in one number, so that a path is compared at once
    depth: [u8; PATHS],
    required: u64,
    count: usize,
    rules: [Rule; RULES],
}

fn name(parent: usize, label: usize) -> u32 {
    (parent << 14 | label) as u32
}

impl Default for Rules {
    /// One path with label 0, nothing required, no rules.
    fn default() -> Self {
        Rules {
            paths: 1,
            parent: [0; PATHS],
            name: [0; PATHS],
            depth: [1; PATHS],
            required: 0,
            count: 0,
            rules: [Rule { kind: Kind::Implication, left: 0, right: 0 }; RULES],
        }
    }
}

impl Rules {
    /// A table handed in, with each path after the root as parent and label, each rule as kind, left and right.
    pub fn new(
        root: usize,
        paths: &[(usize, usize)],
        required: &[usize],
        rules: &[(usize, usize, usize)],
    ) -> Answer<Self> {
        let wrong = Refusal { number: 12, offset: 0 };
        let sound = |fault: Option<u8>| if fault.is_none() { Ok(()) } else { Err(wrong) };
        let mut table = Rules::default();
        if paths.len() >= PATHS || rules.len() > RULES || root > LABEL {
            return Err(wrong);
        }
        table.name[0] = name(0, root);
        for &(parent, label) in paths {
            sound(table.parent_fault(parent))?;
            sound((label > LABEL).then_some(12).or(table.label_fault(parent, label)))?;
            table.add_path(parent, label);
        }
        for &path in required {
            sound(table.required_fault(path))?;
            table.required |= bit(path);
        }
        for &(kind, left, right) in rules {
            sound(table.path_fault(left).or(table.path_fault(right)))?;
            table.add_rule(Kind::of(kind).ok_or(wrong)?, left, right);
        }
        Ok(table)
    }

    pub fn read(bytes: &[u8]) -> Answer<Self> {
        let mut table = Rules::default();
        let mut input = Reader::new(bytes, 0);
        let paths = input.tested(|n| (n == 0 || n > PATHS).then_some(3))?;
        table.name[0] = name(0, input.number()?);
        for _ in 1..paths {
            let parent = input.tested(|n| table.parent_fault(n))?;
            let label = input.tested(|n| table.label_fault(parent, n))?;
            table.add_path(parent, label);
        }
        for _ in 0..input.number()? {
            let path = input.tested(|n| table.required_fault(n))?;
            table.required |= bit(path);
        }
        for _ in 0..input.tested(|n| (n > RULES).then_some(8))? {
            let kind = input.tested(|n| Kind::of(n).is_none().then_some(9))?;
            let left = input.tested(|n| table.path_fault(n))?;
            let right = input.tested(|n| table.path_fault(n))?;
            table.add_rule(Kind::of(kind).unwrap(), left, right);
        }
        input.end()?;
        Ok(table)
    }

    /// Writes the rule file and returns its length.
    pub fn write(&self, out: &mut [u8]) -> Answer<usize> {
        let labels = self.name[..self.paths].iter().map(|&name| name as usize & LABEL);
        let required = self.required.count_ones() as usize;
        let long = labels.clone().filter(|&label| label > 127).count();
        let length = 2 * self.paths + long + 1 + required + size(self.count) + 3 * self.count;
        let mut out = Writer::new(out, length)?;
        out.put(self.paths);
        for (x, label) in labels.enumerate() {
            if x > 0 {
                out.put(self.parent(x));
            }
            out.put(label);
        }
        out.put(required);
        for path in Members(self.required) {
            out.put(path);
        }
        out.put(self.count);
        for rule in self.rules() {
            out.put(rule.kind as usize);
            out.put(rule.left());
            out.put(rule.right());
        }
        Ok(length)
    }

    pub fn rules(&self) -> &[Rule] {
        &self.rules[..self.count]
    }

    fn parent_fault(&self, parent: usize) -> Option<u8> {
        if parent >= self.paths {
            Some(4)
        } else if self.depth[parent] as usize == DEPTH {
            Some(5)
        } else {
            None
        }
    }

    fn label_fault(&self, parent: usize, label: usize) -> Option<u8> {
        self.name[1..self.paths].contains(&name(parent, label)).then_some(6)
    }

    fn required_fault(&self, path: usize) -> Option<u8> {
        (path == 0 || path >= self.paths || self.required >> path != 0).then_some(7)
    }

    fn path_fault(&self, path: usize) -> Option<u8> {
        (path >= self.paths).then_some(10)
    }

    fn add_path(&mut self, parent: usize, label: usize) {
        let x = self.paths;
        self.parent[x] = parent as u8;
        self.name[x] = name(parent, label);
        self.depth[x] = self.depth[parent] + 1;
        self.paths += 1;
    }

    fn add_rule(&mut self, kind: Kind, left: usize, right: usize) {
        self.rules[self.count] = Rule { kind, left: left as u8, right: right as u8 };
        self.count += 1;
    }

    fn parent(&self, x: usize) -> usize {
        self.parent[x] as usize
    }

    /// The depth of x less one.
    fn level(&self, x: usize) -> usize {
        self.depth[x] as usize - 1
    }

    /// For each path the set of the paths at or above it.
    fn above(&self) -> [u64; PATHS] {
        let mut above = [0; PATHS];
        for x in 0..self.paths {
            above[x] = above[self.parent(x)] | bit(x);
        }
        above
    }
}

/// The longest common prefix. A path's number is above its parent's, so it is the highest common member.
fn context(above: &[u64; PATHS], p: usize, q: usize) -> usize {
    highest(above[p] & above[q])
}

// ---------------------------------------------------------------------------------------------- documents

#[derive(Clone, Copy, Debug, PartialEq, Eq)]
pub enum Check {
    Obeys,
    Broken { rule: usize, part: usize },
    Missing { path: usize },
}

/// A document that was read: the path of each part, and the paths that it holds.
struct Parts {
    count: usize,
    path: [u8; PARTS],
    holds: [u64; PARTS],
}

impl Parts {
    fn read(rules: &Rules, bytes: &[u8]) -> Answer<Self> {
        if bytes.len() > DOCUMENT_BYTES {
            return refuse(14, 0);
        }
        let mut input = Reader::new(bytes, 0);
        let count = input.tested(|n| (n == 0 || n > PARTS).then_some(15))?;
        let mut path = [0; PARTS];
        // how many children, and where they begin
        let mut children = [(0u32, 0u32); PARTS];
        // the paths of a part's namers until the part is read (all its namers stand before it), then what it holds
        let mut word = [0; PARTS];
        for part in 0..count {
            let namers = word[part];
            let x = input.tested(|x| {
                if x >= rules.paths || part == 0 && x != 0 {
                    Some(16)
                } else if part > 0 && namers == 0 {
                    Some(17)
                } else if part > 0 && (x == 0 || namers != bit(rules.parent(x))) {
                    Some(18)
                } else {
                    None
                }
            })?;
            path[part] = x as u8;
            word[part] = bit(x);
            let many = input.number()?;
            children[part] = (many as u32, input.at as u32);
            let mut previous = part;
            for _ in 0..many {
                previous = input.tested(|n| (n <= previous || n >= count).then_some(19))?;
                word[previous] |= bit(x);
            }
        }
        input.end()?;
        for part in (0..count).rev() {
            let (many, at) = children[part];
            let mut input = Reader::new(bytes, at as usize);
            for _ in 0..many {
                word[part] |= word[input.number()?];
            }
        }
        Ok(Parts { count, path, holds: word })
    }

    fn on(&self, c: usize) -> impl Iterator<Item = (usize, u64)> + '_ {
        let parts = self.path[..self.count].iter().zip(&self.holds).enumerate();
        parts.filter(move |(_, (&path, _))| path as usize == c).map(|(part, (_, &holds))| (part, holds))
    }
}

pub fn check_document(rules: &Rules, document: &[u8]) -> Answer<Check> {
    let parts = Parts::read(rules, document)?;
    let above = rules.above();

    // per context, the paths that trigger a rule there
    let mut triggers = [0; PATHS];
    for rule in rules.rules() {
        let (p, q) = (rule.left(), rule.right());
        triggers[context(&above, p, q)] |= bit(p) | if rule.kind == Kind::CoOccurrence { bit(q) } else { 0 };
    }
    // what the nodes that hold a trigger lack, and what they hold beside it, by level of the context and trigger
    let mut lacks = [[0; PATHS]; DEPTH];
    let mut beside = [[0; PATHS]; DEPTH];
    for (&path, &holds) in parts.path[..parts.count].iter().zip(&parts.holds) {
        let level = rules.level(path as usize);
        for x in Members(holds & triggers[path as usize]) {
            lacks[level][x] |= !holds;
            beside[level][x] |= holds;
        }
    }
    for (number, rule) in rules.rules().iter().enumerate() {
        let (p, q) = (rule.left(), rule.right());
        let c = context(&above, p, q);
        let level = rules.level(c);
        let broken = match rule.kind {
            Kind::Implication => has(lacks[level][p], q),
            Kind::Absence => has(beside[level][p], q),
            Kind::CoOccurrence => has(lacks[level][p], q) || has(lacks[level][q], p),
        };
        if broken {
            let breaks = |holds| match rule.kind {
                Kind::Implication => has(holds, p) && !has(holds, q),
                Kind::Absence => has(holds, p) && has(holds, q),
                Kind::CoOccurrence => has(holds, p) != has(holds, q),
            };
            let (part, _) = parts.on(c).find(|&(_, holds)| breaks(holds)).expect("some part breaks it");
            return Ok(Check::Broken { rule: number, part });
        }
    }
    let missing = rules.required & !parts.holds[0];
    Ok(if missing == 0 { Check::Obeys } else { Check::Missing { path: lowest(missing) } })
}

// ---------------------------------------------------------------------------------------------- reasoning

/// The table as a graph: what stands above and below each path, and the steps between paths.
struct Graph<'a> {
    rules: &'a Rules,
    above: [u64; PATHS],
    below: [u64; PATHS],
    levels: [u64; DEPTH + 1],
    to: [u64; PATHS],
    from: [u64; PATHS],
}

impl<'a> Graph<'a> {
    fn new(rules: &'a Rules) -> Self {
        let above = rules.above();
        let mut below = [0; PATHS];
        let mut levels = [0; DEPTH + 1];
        let mut to = [0; PATHS];
        let mut from = [0; PATHS];
        for x in (0..rules.paths).rev() {
            below[x] |= bit(x);
            levels[rules.level(x)] |= bit(x);
            if x > 0 {
                let parent = rules.parent(x);
                below[parent] |= below[x];
                to[x] |= bit(parent);
                from[parent] |= bit(x);
            }
        }
        for rule in rules.rules() {
            let (p, q) = (rule.left(), rule.right());
            if rule.kind != Kind::Absence {
                to[p] |= bit(q);
                from[q] |= bit(p);
            }
            if rule.kind == Kind::CoOccurrence {
                to[q] |= bit(p);
                from[p] |= bit(q);
            }
        }
        Graph { rules, above, below, levels, to, from }
    }

    fn context(&self, p: usize, q: usize) -> usize {
        context(&self.above, p, q)
    }

    /// The path at `level` that x is below.
    fn at_level(&self, x: usize, level: usize) -> usize {
        lowest(self.above[x] & self.levels[level])
    }

    /// The absence rules: number, level of the context, left, right.
    fn absences(&self) -> impl Iterator<Item = (usize, usize, usize, usize)> + '_ {
        let all = self.rules.rules().iter().enumerate();
        all.filter(|(_, rule)| rule.kind == Kind::Absence).map(|(number, rule)| {
            let (p, q) = (rule.left(), rule.right());
            (number, self.rules.level(self.context(p, q)), p, q)
        })
    }
}

/// Every reachable set: `of[level][x]` is what x reaches inside the path at `level` that it is below.
struct Reach {
    of: [[u64; PATHS]; DEPTH],
}

impl Reach {
    fn new(graph: &Graph) -> Self {
        let mut of = [[0; PATHS]; DEPTH];
        // what x reaches inside the last c that was done, and all steps out of that; c goes from the leaves to the root
        let mut set: [u64; PATHS] = std::array::from_fn(bit);
        let mut out = graph.to;
        for c in (0..graph.rules.paths).rev() {
            let inside = graph.below[c];
            let level = graph.rules.level(c);
            for x in Members(inside) {
                let (mut reached, mut steps) = (set[x], out[x]);
                loop {
                    let new = steps & inside & !reached;
                    if new == 0 {
                        break;
                    }
                    let y = lowest(new);
                    reached |= set[y];
                    steps |= out[y];
                }
                set[x] = reached;
                out[x] = steps;
                of[level][x] = reached;
            }
        }
        Reach { of }
    }

    /// What some member of `goals` reaches at `level`.
    fn any(&self, level: usize, goals: u64) -> u64 {
        Members(goals).fold(0, |reached, g| reached | self.of[level][g])
    }
}

/// The reachable sets turned round: `to[level][y]` is the set of the paths that reach y at that level, worked out where
/// an absence rule has its context. And the paths that reach both sides of some absence rule inside its context.
struct Conflicts {
    to: [[u64; PATHS]; DEPTH],
    at: u64,
}

impl Conflicts {
    fn new(graph: &Graph, reach: &Reach) -> Self {
        let mut to = [[0; PATHS]; DEPTH];
        let mut done = [false; DEPTH];
        let mut at = 0;
        for (_, level, p, q) in graph.absences() {
            if !done[level] {
                to[level] = reach.of[level];
                transpose(&mut to[level], graph.rules.paths.next_power_of_two());
                done[level] = true;
            }
            at |= to[level][p] & to[level][q];
        }
        Conflicts { to, at }
    }

    fn dead(&self, reach: &Reach, p: usize) -> bool {
        reach.of[0][p] & self.at != 0
    }
}

// ---------------------------------------------------------------------------------------------- evidence

/// Evidence being written. Twice dead is the longest: eight numbers of at most two bytes and six walks of at most 63 steps.
struct Evidence<'a> {
    graph: &'a Graph<'a>,
    first: [u16; PATHS],        // the least rule step from each path, by its code; 0 is none
    next: [u16; 2 * RULES + 1], // the next rule step from the same path
    bytes: [u8; 800],
    length: usize,
}

impl<'a> Evidence<'a> {
    fn new(graph: &'a Graph<'a>) -> Self {
        let mut first = [0; PATHS];
        let mut next = [0; 2 * RULES + 1];
        for (number, rule) in graph.rules.rules().iter().enumerate().rev() {
            let mut step = |from: usize, code: usize| {
                next[code] = first[from];
                first[from] = code as u16;
            };
            if rule.kind == Kind::CoOccurrence {
                step(rule.right(), 2 * number + 2);
            }
            if rule.kind != Kind::Absence {
                step(rule.left(), 2 * number + 1);
            }
        }
        Evidence { graph, first, next, bytes: [0; 800], length: 0 }
    }

    fn put(&mut self, value: usize) {
        let mut out = Writer { bytes: &mut self.bytes, at: self.length };
        out.put(value);
        self.length = out.at;
    }

    fn write(&self, out: &mut [u8]) -> Answer<usize> {
        let out = Writer::new(out, self.length)?;
        out.bytes.copy_from_slice(&self.bytes[..self.length]);
        Ok(self.length)
    }

    /// Puts the walk from p to q inside c and says true, or says false if there is none.
    fn walk(&mut self, p: usize, q: usize, c: usize) -> bool {
        let graph = self.graph;
        let inside = graph.below[c];
        // layers[i]: the paths from which q is i steps away
        let mut layers = [0; PATHS];
        let mut steps = 0;
        let mut layer = bit(q);
        let mut unseen = inside & !layer;
        while !has(layer, p) {
            layers[steps] = layer;
            steps += 1;
            layer = Members(layer).fold(0, |back, y| back | graph.from[y]) & unseen;
            unseen &= !layer;
            if layer == 0 {
                return false;
            }
        }
        self.put(steps);
        let mut x = p;
        for &layer in layers[..steps].iter().rev() {
            let (code, y) = self.step(x, layer);
            self.put(code);
            x = y;
        }
        true
    }

    /// The least step from x into `layer`.
    fn step(&self, x: usize, layer: u64) -> (usize, usize) {
        let parent = self.graph.rules.parent(x);
        if has(layer, parent) {
            return (0, parent);
        }
        let mut code = self.first[x] as usize;
        loop {
            let rule = self.graph.rules.rules[(code - 1) / 2];
            let y = if code % 2 == 1 { rule.right() } else { rule.left() };
            if has(layer, y) {
                return (code, y);
            }
            code = self.next[code] as usize;
        }
    }

    fn direct(&mut self, p: usize, q: usize) -> bool {
        let length = self.length;
        self.put(1);
        let found = self.walk(p, q, self.graph.context(p, q));
        if !found {
            self.length = length;
        }
        found
    }

    fn dead(&mut self, reach: &Reach, conflicts: &Conflicts, p: usize) {
        let y = lowest(reach.of[0][p] & conflicts.at);
        let mut absences = self.graph.absences();
        let (number, level, left, right) = absences
            .find(|&(_, level, left, right)| has(conflicts.to[level][left] & conflicts.to[level][right], y))
            .expect("y reaches both sides of some absence rule");
        let a = self.graph.at_level(y, level);
        for value in [2, p, y, number] {
            self.put(value);
        }
        self.walk(p, y, 0);
        self.walk(y, left, a);
        self.walk(y, right, a);
    }

    /// The pair of `first`, which reaches x, and `second`, which reaches y, by the rule with this number and context.
    fn pair(&mut self, (first, x): (usize, usize), (second, y): (usize, usize), number: usize, side: usize, c: usize) {
        for value in [3, first, second, number, side] {
            self.put(value);
        }
        self.walk(first, x, c);
        self.walk(second, y, c);
    }
}

// ---------------------------------------------------------------------------------------------- documents handed back

/// A document being laid out. Its joint parts, on the paths from the root to `bottom`, carry all of `goals`; at the bottom
/// each goal but the bottom itself has its own child. All other parts have one goal.
struct Draft<'a> {
    graph: &'a Graph<'a>,
    reach: &'a Reach,
    joint: u64,
    joint_number: [usize; DEPTH + 1],  // by level
    goals_on: [u64; PATHS],            // per path the goals of its one-goal parts
    number: [[u16; PATHS]; DEPTH + 1], // of a one-goal part, by level and goal
    late: [u64; DEPTH + 1],            // the goals of one-goal parts whose number takes two bytes, by level
    children: [u64; PARTS],            // a part's one-goal children, by their goals
    count: usize,
    namings: usize,
}

impl<'a> Draft<'a> {
    fn new(graph: &'a Graph<'a>, reach: &'a Reach, goals: u64, bottom: usize) -> Self {
        let mut draft = Draft {
            graph,
            reach,
            joint: graph.above[bottom],
            joint_number: [0; DEPTH + 1],
            goals_on: [0; PATHS],
            number: [[0; PATHS]; DEPTH + 1],
            late: [0; DEPTH + 1],
            children: [0; PARTS],
            count: 0,
            namings: 0,
        };
        for level in 0..DEPTH {
            for c in Members(graph.levels[level]) {
                if has(draft.joint, c) {
                    draft.joint_number[level] = draft.count;
                    let held = reach.any(level, goals);
                    if c == bottom {
                        draft.add_part(level, c, held, goals & !bit(c), 0);
                    } else {
                        draft.add_part(level, c, held, 0, reach.any(level + 1, goals));
                        draft.namings += 1;
                    }
                }
                // parents stand on earlier levels, so the goals on c are complete
                for g in Members(draft.goals_on[c]) {
                    draft.number[level][g] = draft.count as u16;
                    draft.late[level] |= if draft.count > 127 { bit(g) } else { 0 };
                    draft.add_part(level, c, reach.of[level][g], bit(g) & !bit(c), 0);
                }
            }
        }
        draft
    }

    /// Adds a part on c that holds `held`. The goals in `own` get a child whatever the others cover.
    fn add_part(&mut self, level: usize, c: usize, held: u64, own: u64, covered: u64) {
        let mut left = held & self.graph.below[c] & !bit(c) & !covered;
        for x in Members(own) {
            left &= !self.reach.of[level + 1][x];
            self.add_child(level, x);
        }
        while left != 0 {
            let x = highest(left);
            left &= !self.reach.of[level + 1][x];
            self.add_child(level, x);
        }
        self.count += 1;
    }

    fn add_child(&mut self, level: usize, x: usize) {
        self.children[self.count] |= bit(x);
        self.goals_on[self.graph.at_level(x, level + 1)] |= bit(x);
        self.namings += 1;
    }

    fn length(&self) -> usize {
        let mut length = size(self.count) + 2 * self.count + self.namings;
        if self.count > 128 {
            // one byte more for each naming of a part past 127; a joint part is named once, by the one above it
            self.each_part(|level, _, _, children| length += (children & self.late[level + 1]).count_ones() as usize);
            length += self.joint_number.iter().filter(|&&number| number > 127).count();
        }
        length
    }

    /// Every part in order: its level, path, whether it is a joint part, and its one-goal children.
    fn each_part(&self, mut see: impl FnMut(usize, usize, bool, u64)) {
        let mut children = self.children.iter();
        for level in 0..DEPTH {
            for c in Members(self.graph.levels[level]) {
                if has(self.joint, c) {
                    see(level, c, true, *children.next().unwrap());
                }
                for _ in Members(self.goals_on[c]) {
                    see(level, c, false, *children.next().unwrap());
                }
            }
        }
    }

    fn write(&self, out: &mut [u8]) -> Answer<usize> {
        let length = self.length();
        let mut out = Writer::new(out, length)?;
        out.put(self.count);
        self.each_part(|level, c, joint, children| {
            let below = self.graph.levels[level + 1] & self.graph.below[c];
            let shared = if joint { below & self.joint } else { 0 };
            out.put(c);
            out.put((children.count_ones() + shared.count_ones()) as usize);
            let mut left = children;
            for k in Members(below) {
                if has(shared, k) {
                    out.put(self.joint_number[level + 1]);
                }
                for x in Members(left & self.graph.below[k]) {
                    out.put(self.number[level + 1][x] as usize);
                }
                left &= !self.graph.below[k];
                if left | shared == 0 {
                    break;
                }
            }
        });
        Ok(length)
    }
}

// ---------------------------------------------------------------------------------------------- the calls

/// What a call decided, with the length of what it wrote.
#[derive(Clone, Copy, Debug, PartialEq, Eq)]
pub enum Verdict {
    Consistent(usize),
    Inconsistent(usize),
}

#[derive(Clone, Copy, Debug, PartialEq, Eq)]
pub enum Reply {
    Yes(usize),
    No(usize),
}

pub fn consistency(rules: &Rules, out: &mut [u8]) -> Answer<Verdict> {
    let graph = Graph::new(rules);
    let reach = Reach::new(&graph);
    let conflicts = Conflicts::new(&graph, &reach);
    let required = rules.required | bit(0);
    let held = reach.any(0, required);

    let clash = graph.absences().find(|&(_, level, p, q)| level == 0 && has(held, p) && has(held, q));
    if let Some((number, _, p, q)) = clash {
        let mut evidence = Evidence::new(&graph);
        let first = lowest(conflicts.to[0][p] & required);
        let second = lowest(conflicts.to[0][q] & required);
        evidence.pair((first, p), (second, q), number, 0, 0);
        return evidence.write(out).map(Verdict::Inconsistent);
    }
    if let Some(p) = Members(required).find(|&p| conflicts.dead(&reach, p)) {
        let mut evidence = Evidence::new(&graph);
        evidence.dead(&reach, &conflicts, p);
        return evidence.write(out).map(Verdict::Inconsistent);
    }
    Draft::new(&graph, &reach, required, 0).write(out).map(Verdict::Consistent)
}

pub fn ask(rules: &Rules, kind: usize, p: usize, q: usize, out: &mut [u8]) -> Answer<Reply> {
    let kind = match Kind::of(kind) {
        Some(kind) if p < rules.paths && q < rules.paths => kind,
        _ => return refuse(13, 0),
    };
    let graph = Graph::new(rules);
    let mut evidence = Evidence::new(&graph);
    match kind {
        Kind::Implication => implications(&mut evidence, &[(p, q)], out),
        Kind::CoOccurrence => implications(&mut evidence, &[(p, q), (q, p)], out),
        Kind::Absence => absence(&mut evidence, p, q, out),
    }
}

/// Whether all of these implications follow; the first that does not is shown by a document.
fn implications(evidence: &mut Evidence, asked: &[(usize, usize)], out: &mut [u8]) -> Answer<Reply> {
    let mut sets = None;
    for &(p, q) in asked {
        if evidence.direct(p, q) {
            continue;
        }
        let (reach, conflicts) = sets.get_or_insert_with(|| {
            let reach = Reach::new(evidence.graph);
            let conflicts = Conflicts::new(evidence.graph, &reach);
            (reach, conflicts)
        });
        if !conflicts.dead(reach, p) {
            return Draft::new(evidence.graph, reach, bit(p), 0).write(out).map(Reply::No);
        }
        evidence.dead(reach, conflicts, p);
    }
    evidence.write(out).map(Reply::Yes)
}

fn absence(evidence: &mut Evidence, p: usize, q: usize, out: &mut [u8]) -> Answer<Reply> {
    let graph = evidence.graph;
    let reach = Reach::new(graph);
    let conflicts = Conflicts::new(graph, &reach);
    let c = graph.context(p, q);
    if let Some(&dead) = [p, q].iter().find(|&&x| conflicts.dead(&reach, x)) {
        evidence.dead(&reach, &conflicts, dead);
        return evidence.write(out).map(Reply::Yes);
    }
    for (number, level, left, right) in graph.absences() {
        let a = graph.context(left, right);
        if !has(graph.above[c], a) {
            continue;
        }
        let (from_p, from_q) = (reach.of[level][p], reach.of[level][q]);
        if has(from_p, left) && has(from_q, right) {
            evidence.pair((p, left), (q, right), number, 0, a);
        } else if has(from_p, right) && has(from_q, left) {
            evidence.pair((p, right), (q, left), number, 1, a);
        } else {
            continue;
        }
        return evidence.write(out).map(Reply::Yes);
    }
    let bottom = if p == q { 0 } else { c };
    Draft::new(graph, &reach, bit(p) | bit(q), bottom).write(out).map(Reply::No)
}

// ---------------------------------------------------------------------------------------------- the calls over bytes

/// Reads a rule file and writes it.
pub fn rewrite_bytes(rules: &[u8], out: &mut [u8]) -> Answer<usize> {
    Rules::read(rules)?.write(out)
}

pub fn check_bytes(rules: &[u8], document: &[u8]) -> Answer<Check> {
    check_document(&Rules::read(rules)?, document)
}

pub fn consistency_bytes(rules: &[u8], out: &mut [u8]) -> Answer<Verdict> {
    consistency(&Rules::read(rules)?, out)
}

pub fn ask_bytes(rules: &[u8], kind: usize, left: usize, right: usize, out: &mut [u8]) -> Answer<Reply> {
    ask(&Rules::read(rules)?, kind, left, right, out)
}
