//! The comparison of `bench equal` in plain Rust, and tables to compare.
//!
//! `peer tables FOLDER STATES` writes two dense images and a sparse one, `first.image`, `second.image` and
//! `sparse.image`, of one pseudo-random machine of so many states with four classes of bytes and the end of input. The
//! order of the states of the first differs from that of the others. `peer FIRST SECOND TIMES` compares two dense
//! images: standard output says the number of pairs of states, standard error the least time in microseconds.
//!
//! The comparison has the form of the proved one: all places, then breadth first, a unit of each joint class, a set of
//! keys of pairs, and a link for each pair.

use std::collections::HashSet;
use std::time::{Duration, Instant};
use std::{env, fs};

const STRIDE2: usize = 3;
const NONE: u32 = u32::MAX;

// ---- tables

/// A state: where the four classes and the end of input lead, and whether it tells pattern 0.
struct State {
    next: [usize; 5],
    is_match: bool,
}

struct Random(u64);

impl Random {
    fn below(&mut self, end: usize) -> usize {
        self.0 = self.0.wrapping_mul(6364136223846793005).wrapping_add(1442695040888963407);
        (self.0 >> 33) as usize % end
    }
}

/// One state in ten is a match state. Class 0 leads through all states.
fn machine(len: usize) -> Vec<State> {
    let mut random = Random(1);
    (0..len)
        .map(|at| State {
            next: std::array::from_fn(|class| match class {
                0 => (at + 1) % len,
                _ => random.below(len),
            }),
            is_match: at % 10 == 1,
        })
        .collect()
}

/// The order of the states from row 2 on, match states first.
fn order(states: &[State], seed: u64) -> Vec<usize> {
    let mut random = Random(seed);
    let mut order: Vec<usize> = (0..states.len()).collect();
    for at in (1..order.len()).rev() {
        order.swap(at, random.below(at + 1));
    }
    order.sort_by_key(|state| !states[*state].is_match);
    order
}

fn add(image: &mut Vec<u8>, words: &[u32]) {
    words.iter().for_each(|word| image.extend(word.to_le_bytes()));
}

fn head(label: &str) -> Vec<u8> {
    let mut image = label.as_bytes().to_vec();
    image.resize(32, 0);
    add(&mut image, &[0xFEFF, 2, 0, 0]);
    image
}

fn add_classes(image: &mut Vec<u8>) {
    image.extend((0..256).map(|byte| (byte / 64) as u8));
}

/// Both kinds of starts, at one state.
fn add_starts(image: &mut Vec<u8>, start: u32) {
    add(image, &[0]);
    image.extend([0; 256]);
    add(image, &[6, NONE, NONE, NONE]);
    add(image, &[start; 12]);
}

fn dense_image(states: &[State], order: &[usize]) -> Vec<u8> {
    let mut row = vec![0; states.len()];
    order.iter().enumerate().for_each(|(at, state)| row[*state] = at + 2);
    let id = |state: usize| (row[state] << STRIDE2) as u32;
    let matches = states.iter().filter(|state| state.is_match).count() as u32;
    let mut image = head("rust-regex-automata-dfa-dense");
    add(&mut image, &[states.len() as u32 + 2, STRIDE2 as u32]);
    add_classes(&mut image);
    add(&mut image, &[0; 2 << STRIDE2]);
    for state in order {
        let mut words = [0; 1 << STRIDE2];
        (0..5).for_each(|class| words[class] = id(states[*state].next[class]));
        add(&mut image, &words);
    }
    add_starts(&mut image, id(0));
    add(&mut image, &[matches]);
    (0..matches).for_each(|_| add(&mut image, &[0, 1]));
    add(&mut image, &[1, 1, 0]);
    let (first, last) = (2 << STRIDE2, (matches + 1) << STRIDE2);
    add(&mut image, &[last, 1 << STRIDE2, first, last, 0, 0, 0, 0]);
    add(&mut image, &[0]);
    add(&mut image, &[0; 8]);
    image
}

/// A row of a sparse image: its ranges lead to one state each.
fn add_sparse_row(image: &mut Vec<u8>, is_match: bool, next: &[u32; 5]) {
    let ranges = 5 | if is_match { 0x8000u16 } else { 0 };
    image.extend(ranges.to_le_bytes());
    (0..5u8).for_each(|class| image.extend(if class < 4 { [class, class] } else { [0, 0] }));
    add(image, next);
    if is_match {
        add(image, &[1, 0]);
    }
    image.push(0);
}

fn sparse_image(states: &[State], order: &[usize]) -> Vec<u8> {
    let mut ids = vec![0; states.len()];
    let mut end = 2 * SILENT;
    for state in order {
        ids[*state] = end;
        end += SILENT + if states[*state].is_match { 8 } else { 0 };
    }
    let mut image = head("rust-regex-automata-dfa-sparse");
    add(&mut image, &[states.len() as u32 + 2, 1]);
    add_classes(&mut image);
    add(&mut image, &[end]);
    (0..2).for_each(|_| add_sparse_row(&mut image, false, &[0; 5]));
    for state in order {
        let next = states[*state].next.map(|next| ids[next]);
        add_sparse_row(&mut image, states[*state].is_match, &next);
    }
    add_starts(&mut image, ids[0]);
    let matches = states.iter().filter(|state| state.is_match).count();
    let (first, last) = (ids[order[0]], ids[order[matches - 1]]);
    add(&mut image, &[last, SILENT, first, last, 0, 0, 0, 0]);
    add(&mut image, &[0; 8]);
    image
}

/// The bytes of a sparse row without patterns.
const SILENT: u32 = 2 + 10 + 20 + 1;

// ---- the comparison

struct Table {
    classes: [u8; 256],
    words: Vec<u32>,
    starts: Vec<u32>,
    slices: Vec<u32>,
    pattern_ids: Vec<u32>,
    pattern_len: usize,
    quit_id: u32,
    min_match: u32,
    max_match: u32,
    quit: [u8; 32],
}

#[derive(Clone, Copy)]
enum Unit {
    Byte(u8),
    Eoi,
}

#[derive(Clone, Copy, PartialEq)]
enum Mode {
    No,
    Yes,
    Pattern(u32),
}

#[derive(Clone, Copy)]
struct Place {
    mode: Mode,
    behind: Option<u8>,
}

#[derive(Clone, Copy)]
#[allow(dead_code)]
enum Link {
    Start(Place),
    Next { from: u64, unit: Unit },
}

#[derive(Clone, Copy, PartialEq)]
enum Refusal {
    Quit,
    Unsupported,
}

impl Table {
    /// The table of an image that `tables` wrote.
    fn read(image: &[u8]) -> Table {
        let mut at = 48;
        let mut words = |len: usize, after: usize| -> Vec<u32> {
            let bytes = &image[at..at + 4 * len];
            at += 4 * len + after;
            bytes.chunks(4).map(|word| u32::from_le_bytes(word.try_into().unwrap())).collect()
        };
        let rows = words(2, 256)[0] as usize;
        let entries = words(rows << STRIDE2, 276);
        let starts = words(12, 0);
        let matches = words(1, 0)[0] as usize;
        let slices = words(2 * matches, 0);
        let pattern_len = words(1, 0)[0] as usize;
        let ids = words(1, 0)[0] as usize;
        let pattern_ids = words(ids, 0);
        let special = words(9, 0);
        Table {
            classes: image[56..312].try_into().unwrap(),
            words: entries,
            starts,
            slices,
            pattern_ids,
            pattern_len,
            quit_id: special[1],
            min_match: special[2],
            max_match: special[3],
            quit: image[at..at + 32].try_into().unwrap(),
        }
    }

    #[inline(always)]
    fn next(&self, id: u32, unit: Unit) -> u32 {
        let class = match unit {
            Unit::Byte(byte) => self.classes[byte as usize] as usize,
            Unit::Eoi => self.classes[255] as usize + 1,
        };
        self.words[id as usize + class]
    }

    fn start(&self, place: Place) -> Result<u32, Refusal> {
        if let Some(byte) = place.behind {
            if self.quit[byte as usize / 8] >> (byte % 8) & 1 == 1 {
                return Err(Refusal::Quit);
            }
        }
        match place.mode {
            Mode::No => Ok(self.starts[0]),
            Mode::Yes => Ok(self.starts[6]),
            Mode::Pattern(_) => Err(Refusal::Unsupported),
        }
    }

    #[inline]
    fn is_match(&self, id: u32) -> bool {
        self.min_match <= id && id <= self.max_match && id != 0
    }

    fn patterns(&self, id: u32) -> &[u32] {
        let place = (id - self.min_match) as usize >> STRIDE2;
        let start = self.slices[2 * place] as usize;
        &self.pattern_ids[start..start + self.slices[2 * place + 1] as usize]
    }

    #[inline]
    fn is_quit(&self, id: u32) -> bool {
        id == self.quit_id
    }
}

type Pair = (u32, u32);

struct Walk<'a> {
    a: &'a Table,
    b: &'a Table,
    links: Vec<Link>,
    pairs: Vec<Pair>,
    known: HashSet<u64>,
}

impl Walk<'_> {
    fn add(&mut self, link: Link, pair: Pair) -> bool {
        if !self.known.insert((pair.0 as u64) << 32 | pair.1 as u64) {
            return false;
        }
        self.pairs.push(pair);
        self.links.push(link);
        true
    }

    fn have_equal_labels(&self, pair: Pair) -> bool {
        if self.a.is_match(pair.0) {
            return self.b.is_match(pair.1) && self.a.patterns(pair.0) == self.b.patterns(pair.1);
        }
        !self.b.is_match(pair.1) && self.a.is_quit(pair.0) == self.b.is_quit(pair.1)
    }

    /// Adds the pair at a place, unless the tables differ there.
    fn begin(&mut self, place: Place) -> bool {
        match (self.a.start(place), self.b.start(place)) {
            (Ok(id), Ok(other)) => {
                self.add(Link::Start(place), (id, other));
                true
            }
            (Err(error), Err(other)) => error == other,
            _ => false,
        }
    }

    fn begin_all(&mut self) -> bool {
        let none = Place { mode: Mode::Pattern(0), behind: None };
        let modes = match (self.a.start(none), self.b.start(none)) {
            (Err(error), Err(other)) if error == other => 2,
            _ => self.a.pattern_len.max(self.b.pattern_len) + 3,
        };
        (0..modes).all(|mode| {
            let mode = match mode {
                0 => Mode::No,
                1 => Mode::Yes,
                _ => Mode::Pattern(mode as u32 - 2),
            };
            (0..257).all(|byte| self.begin(Place { mode, behind: (byte < 256).then_some(byte as u8) }))
        })
    }

    fn step(&mut self, at: usize, units: &[Unit]) -> bool {
        let (id, other) = self.pairs[at];
        units.iter().all(|unit| {
            let pair = (self.a.next(id, *unit), self.b.next(other, *unit));
            !self.add(Link::Next { from: at as u64, unit: *unit }, pair) || self.have_equal_labels(pair)
        })
    }
}

/// The number of pairs of two tables that mean the same.
fn compare(a: &Table, b: &Table) -> Option<Vec<Link>> {
    let mut walk = Walk { a, b, links: Vec::new(), pairs: Vec::new(), known: HashSet::new() };
    if !walk.begin_all() {
        return None;
    }
    let as_previous = |table: &Table, byte: usize| byte > 0 && table.classes[byte] == table.classes[byte - 1];
    let mut units: Vec<Unit> = (0..256)
        .filter(|byte| !(as_previous(a, *byte) && as_previous(b, *byte)))
        .map(|byte| Unit::Byte(byte as u8))
        .collect();
    units.push(Unit::Eoi);
    let mut at = 0;
    while at < walk.pairs.len() {
        if !walk.step(at, &units) {
            return None;
        }
        at += 1;
    }
    Some(walk.links)
}

fn main() {
    let words: Vec<String> = env::args().skip(1).collect();
    if words[0] == "tables" {
        let states = machine(words[2].parse().unwrap());
        let (first, second) = (order(&states, 2), order(&states, 3));
        let write = |name: &str, image: Vec<u8>| fs::write(format!("{}/{name}.image", words[1]), image).unwrap();
        write("first", dense_image(&states, &first));
        write("second", dense_image(&states, &second));
        write("sparse", sparse_image(&states, &second));
        return;
    }
    let read = |name: &str| Table::read(&fs::read(name).unwrap());
    let (a, b) = (read(&words[0]), read(&words[1]));
    let mut least = Duration::MAX;
    let mut told = None;
    for _ in 0..words[2].parse::<u32>().unwrap() {
        let begin = Instant::now();
        let links = compare(&a, &b);
        least = least.min(begin.elapsed());
        told = links.map(|links| links.len());
    }
    println!("equal {}", told.unwrap());
    eprintln!("compare {}", least.as_micros());
}
