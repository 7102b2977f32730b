//! Makes traces, reports and damaged texts at random.
use crate::judge::{report_text, Dag, Kind, Race, Record, Version};

/// Numbers at random: those of one seed are the same everywhere.
pub struct Random(u64);

impl Random {
    pub fn new(seed: u64, case: u64) -> Random {
        let mut random = Random(seed);
        random.0 = random.next() ^ case;
        random
    }

    pub fn next(&mut self) -> u64 {
        self.0 = self.0.wrapping_add(0x9e37_79b9_7f4a_7c15);
        let mut mixed = self.0;
        mixed = (mixed ^ mixed >> 30).wrapping_mul(0xbf58_476d_1ce4_e5b9);
        mixed = (mixed ^ mixed >> 27).wrapping_mul(0x94d0_49bb_1331_11eb);
        mixed ^ mixed >> 31
    }

    /// A number from 0 on, below the bound.
    pub fn below(&mut self, bound: usize) -> usize {
        (self.next() % bound as u64) as usize
    }

    /// A number from the first to the last.
    pub fn within(&mut self, first: usize, last: usize) -> usize {
        first + self.below(last - first + 1)
    }

    /// Once in so many times.
    pub fn once_in(&mut self, times: usize) -> bool {
        self.below(times) == 0
    }

    /// An index, as often as its weight says.
    pub fn by_weight(&mut self, weights: &[usize]) -> usize {
        let mut rest = self.below(weights.iter().sum());
        for (index, weight) in weights.iter().enumerate() {
            if rest < *weight {
                return index;
            }
            rest -= weight;
        }
        unreachable!("the rest is below the sum")
    }

    pub fn pick<T: Copy>(&mut self, from: &[T]) -> T {
        from[self.below(from.len())]
    }
}

const KINDS: [Kind; 2] = [Kind::Read, Kind::Write];

/// How often a spawn or a call, a return, a sync, a read and a write come.
const HABITS: [[usize; 5]; 8] = [
    [4, 4, 2, 4, 4],
    [6, 5, 1, 3, 2],
    [8, 8, 3, 1, 1],
    [1, 1, 1, 12, 6],
    [1, 1, 0, 3, 40],
    [2, 2, 0, 60, 3],
    [12, 2, 1, 4, 4],
    [10, 10, 0, 0, 0],
];

/// The records of a well nested trace, with about so many records at most. Those of version 2 have calls among them.
pub fn records(random: &mut Random, version: Version, most: usize) -> Vec<Record> {
    let bound = random.pick(&[4, 8, 16, 16, 32, 32, 64, 64, 200, 200, 600, 2000, most]).min(most);
    let length = random.below(bound + 1);
    let deepest = random.pick(&[0, 1, 1, 2, 2, 3, 4, 6, 10, 40, 3000]);
    let locations = locations(random);
    // Of four procedures so many are called, about.
    let called = if version == Version::One { 0 } else { random.pick(&[1, 2, 2, 3, 4]) };
    let mut habit = random.pick(&HABITS);
    let (mut records, mut depth) = (Vec::new(), 0);
    while records.len() < length {
        if random.once_in(60) {
            habit = random.pick(&HABITS);
        }
        match random.by_weight(&habit) {
            0 if depth < deepest => {
                depth += 1;
                records.push(if random.below(4) < called { Record::Call } else { Record::Spawn });
            }
            1 if depth > 0 => {
                depth -= 1;
                records.push(Record::Return);
            }
            3 => records.push(Record::Access(Kind::Read, random.pick(&locations))),
            4 => records.push(Record::Access(Kind::Write, random.pick(&locations))),
            2 => records.push(Record::Sync),
            // No procedure can be opened or closed here.
            _ => records.push(Record::Access(random.pick(&KINDS), random.pick(&locations))),
        }
    }
    // What is still active returns, often after something more.
    while depth > 0 {
        if random.once_in(2) {
            records.push(Record::Access(random.pick(&KINDS), random.pick(&locations)));
        }
        records.push(Record::Return);
        depth -= 1;
    }
    records.push(Record::Return);
    records
}

// A few locations, so that races are likely; neighbours, multiples and any numbers.
fn locations(random: &mut Random) -> Vec<u64> {
    let count = random.pick(&[1, 1, 2, 3, 4, 8, 20, 100]);
    let step = random.pick(&[1, 1, 2, 3, 8, 64, 512, 1 << 32]);
    let first = match random.below(4) {
        0 => 0,
        1 => random.below(100) as u64,
        2 => u64::MAX - count * step,
        _ => random.next() >> random.below(64),
    };
    match random.below(4) {
        0 => (0..count).map(|_| random.next() >> random.below(64)).collect(),
        _ => (1..=count).map(|number| first.wrapping_add(number * step)).collect(),
    }
}

pub fn text_of(version: Version, records: &[Record]) -> Vec<u8> {
    let mut text = format!("{}\n", version.header());
    for record in records {
        match record {
            Record::Spawn => text += "spawn\n",
            Record::Call => text += "call\n",
            Record::Return => text += "return\n",
            Record::Sync => text += "sync\n",
            Record::Access(kind, location) => text += &format!("{} {location}\n", kind.word()),
        }
    }
    text.into_bytes()
}

/// A report that isn't the true one: other races of some locations, or one entry that is another.
pub fn another_report(random: &mut Random, dag: &Dag) -> Vec<u8> {
    let mut entries = dag.report();
    if random.once_in(3) {
        entries.retain(|_| !random.once_in(4));
        for entry in &mut entries {
            *entry = random.pick(&dag.races(entry.location));
        }
    }
    if entries.is_empty() || random.once_in(4) {
        add_entry(random, dag, &mut entries);
    } else if !random.once_in(6) {
        let at = random.below(entries.len());
        change_entry(random, dag, &mut entries[at]);
    }
    report_text(&entries).into_bytes()
}

// Adds two accesses of one location, whether they race or not.
fn add_entry(random: &mut Random, dag: &Dag, entries: &mut Vec<Race>) {
    let locations = dag.locations();
    let location = if locations.is_empty() { 7 } else { random.pick(&locations) };
    let accesses: Vec<(Kind, u64)> =
        dag.accesses(location).into_iter().map(|(kind, place)| (kind, place as u64)).collect();
    let [one, other] = match accesses[..] {
        [] | [_] => [(Kind::Write, 1), (Kind::Read, 2)],
        _ => [random.pick(&accesses), random.pick(&accesses)],
    };
    let (first, second) = if one.1 < other.1 { (one, other) } else { (other, one) };
    entries.retain(|entry| entry.location != location);
    let at = entries.partition_point(|entry| entry.location < location);
    entries.insert(at, Race { location, first, second });
}

fn change_entry(random: &mut Random, dag: &Dag, entry: &mut Race) {
    let near = random.pick(&[1, 1, 1, u64::MAX, 2, 1 << 48]);
    let other_place = random.within(1, dag.records.len() + 1) as u64;
    let other_kind = |kind| if kind == Kind::Read { Kind::Write } else { Kind::Read };
    match random.below(8) {
        0 => entry.location = entry.location.wrapping_add(near),
        1 => entry.location = random.pick(&dag.locations()),
        2 => entry.first.1 = entry.first.1.wrapping_add(near),
        3 => entry.second.1 = entry.second.1.wrapping_add(near),
        4 => entry.first.1 = other_place,
        5 => entry.second.1 = other_place,
        6 => entry.first.0 = other_kind(entry.first.0),
        _ => entry.second.0 = other_kind(entry.second.0),
    }
}

/// Numbers at their limits, and what is nearly a number.
const NUMBERS: [&str; 24] = [
    "0",
    "1",
    "2",
    "3",
    "9",
    "00",
    "01",
    "-1",
    "+1",
    "1.",
    "1e3",
    "0x1",
    "",
    "281474976710656",
    "281474976710657",
    "4294967296",
    "9223372036854775808",
    "18446744073709551614",
    "18446744073709551615",
    "18446744073709551616",
    "18446744073709551620",
    "99999999999999999999",
    "018446744073709551615",
    "184467440737095516150",
];

/// Lines that are none, or nearly.
const LINES: [&str; 30] = [
    "",
    " ",
    "call",
    "call",
    "call ",
    "call 1",
    "calls",
    "cal",
    "call\r",
    "retur",
    "returns",
    "Return",
    " return",
    "return ",
    "return 1",
    "spawn\r",
    "sync\t",
    "read",
    "read ",
    "read  1",
    "read 1 ",
    "read\t1",
    "write 1 1",
    "# spawn",
    "trace 1",
    "trace 2",
    "races 0",
    "race 1 write 2 write 3",
    "write 184467440737095516155",
    "read 18446744073709551615555",
];

/// Damages a text in one to three ways.
pub fn damage(random: &mut Random, text: &mut Vec<u8>) {
    for _ in 0..random.pick(&[1, 1, 1, 2, 3]) {
        match random.below(10) {
            0..=2 => damage_bytes(random, text),
            3..=5 => damage_lines(random, text),
            6..=8 => damage_words(random, text),
            _ => damage_header(random, text),
        }
    }
}

// Headers of both versions, and what is nearly one.
const HEADERS: [&str; 9] =
    ["trace 1", "trace 1", "trace 2", "trace 2", "trace 3", "trace 02", "trace 12", "trace 2 ", "trace  2"];

// Puts another header in the place of the first line: then a text with calls may be one of version 1.
fn damage_header(random: &mut Random, text: &mut Vec<u8>) {
    let end = text.iter().position(|byte| *byte == b'\n').unwrap_or(text.len());
    text.splice(..end, random.pick(&HEADERS).bytes());
}

fn damage_bytes(random: &mut Random, text: &mut Vec<u8>) {
    const BYTES: &[u8] = b"\n\n\r \t\x000123456789arsw-+.#\x7f\x80\xff";
    let at = random.below(text.len() + 1);
    let byte = if random.once_in(4) { random.next() as u8 } else { random.pick(BYTES) };
    match random.below(8) {
        0 => text.truncate(at),
        1 => {
            text.pop();
        }
        2 => text.insert(at, byte),
        3 => text.extend_from_within(at..),
        _ if at == text.len() => text.push(byte),
        4 => {
            text.remove(at);
        }
        5 => text.insert(at, text[at]),
        _ => text[at] = byte,
    }
}

fn damage_lines(random: &mut Random, text: &mut Vec<u8>) {
    let mut lines: Vec<Vec<u8>> = text.split_inclusive(|byte| *byte == b'\n').map(<[u8]>::to_vec).collect();
    let (at, other) = (random.below(lines.len() + 1), random.below(lines.len() + 1));
    let line = format!("{}\n", random.pick(&LINES)).into_bytes();
    match random.below(7) {
        0 => lines.insert(at, line),
        1 => lines.insert(at, random.pick(&["spawn\n", "call\n", "return\n", "sync\n"]).into()),
        _ if at == lines.len() => lines.push(line),
        2 => lines[at] = line,
        3 => lines.insert(at, lines[at].clone()),
        4 if other < lines.len() => lines.swap(at, other),
        // As many bytes as the longest line has, one less, or some more.
        5 => lines.insert(at, [vec![b'x'; random.within(24, 30)], vec![b'\n']].concat()),
        _ => {
            lines.remove(at);
        }
    }
    *text = lines.concat();
}

// Puts another number, or another space, in the place of a word.
fn damage_words(random: &mut Random, text: &mut Vec<u8>) {
    let is_between = |byte: &u8| *byte == b' ' || *byte == b'\n';
    let spaces: Vec<usize> = (0..text.len()).filter(|at| is_between(&text[*at])).collect();
    if spaces.is_empty() {
        return;
    }
    let from = random.pick(&spaces);
    let after = text[from + 1..].iter().position(is_between).map_or(text.len(), |length| from + 1 + length);
    if random.once_in(4) {
        let space = random.pick(&["", "  ", "\t", "\r\n", "\n\n", "\n", " "]);
        text.splice(from..from + 1, space.bytes());
    } else {
        text.splice(from + 1..after, random.pick(&NUMBERS).bytes());
    }
}
