//! What the program has to answer, by docs/TRACE.md, docs/REPORT.md and docs/DEFINITIONS.md: texts line by line, and the
//! edges, paths and races of the dag one by one. It is slow, and knows nothing of bags.
use std::collections::{BTreeMap, BTreeSet};

#[derive(Clone, Copy, PartialEq, Eq)]
pub enum Kind {
    Read,
    Write,
}

#[derive(Clone, Copy, PartialEq, Eq)]
pub enum Record {
    Spawn,
    Call,
    Return,
    Sync,
    Access(Kind, u64),
}

/// The version of the text of a trace. Calls stand in version 2 alone.
#[derive(Clone, Copy, PartialEq, Eq)]
pub enum Version {
    One,
    Two,
}

/// A location, and two accesses of it: their kinds and places.
#[derive(Clone, Copy, PartialEq, Eq)]
pub struct Race {
    pub location: u64,
    pub first: (Kind, u64),
    pub second: (Kind, u64),
}

#[derive(Clone, Copy)]
pub enum Question {
    /// The races of the locations that leave this rest by this number.
    Check(u64, u64),
    Explain(u64),
    Pairs(u64),
    Measure,
    Confirm,
    /// Of two reports, where the first stands in the place of the trace.
    Merge,
}

#[derive(Clone, PartialEq, Eq)]
pub struct Answer {
    pub out: Vec<u8>,
    pub err: Vec<u8>,
    pub status: Ending,
}

#[derive(Clone, Copy, PartialEq, Eq, Debug)]
pub enum Ending {
    Status(i32),
    Signal(Option<i32>),
    TooLate,
}

impl Kind {
    pub fn word(self) -> &'static str {
        match self {
            Kind::Read => "read",
            Kind::Write => "write",
        }
    }
}

impl Version {
    pub fn header(self) -> &'static str {
        match self {
            Version::One => "trace 1",
            Version::Two => "trace 2",
        }
    }
}

/// The answer to a question about the trace and the report with these bytes.
pub fn answer(question: Question, deepest: usize, trace: &[u8], report: &[u8]) -> Answer {
    match answer_or_fault(question, deepest, trace, report) {
        Ok((out, status)) => Answer { out: out.into_bytes(), err: Vec::new(), status: Ending::Status(status) },
        Err(fault) => {
            Answer { out: Vec::new(), err: format!("spbags: {fault}\n").into_bytes(), status: Ending::Status(2) }
        }
    }
}

fn answer_or_fault(question: Question, deepest: usize, trace: &[u8], report: &[u8]) -> Result<(String, i32), String> {
    if let Question::Merge = question {
        return merged(trace, report);
    }
    // A report is judged before the trace.
    let entries = match question {
        Question::Confirm => entries_of(report).map_err(|line| format!("report line {line}: bad"))?,
        _ => Vec::new(),
    };
    let dag = Dag::new(records_of(trace, deepest)?);
    Ok(match question {
        Question::Check(rest, count) => {
            let mut told = dag.report();
            told.retain(|race| race.location % count == rest);
            (report_text(&told), !told.is_empty() as i32)
        }
        Question::Explain(location) => match dag.report().iter().find(|told| told.location == location) {
            None => ("no race\n".to_string(), 0),
            Some(told) => (dag.explanation(told), 1),
        },
        Question::Pairs(location) => {
            let races = dag.races(location);
            let mut text = format!("pairs {}\n", races.len());
            for Race { first, second, .. } in &races {
                text += &format!("pair {} {} {} {}\n", first.0.word(), first.1, second.0.word(), second.1);
            }
            (text, !races.is_empty() as i32)
        }
        Question::Measure => {
            let spawns = dag.records.iter().filter(|record| **record == Record::Spawn).count();
            let deepest = dag.depths.iter().max().expect("a record");
            let (work, span) = (dag.records.len(), dag.span());
            (format!("work {work}\nspan {span}\nspawns {spawns}\ndepth {deepest}\n"), 0)
        }
        Question::Confirm => match entries.iter().position(|entry| !dag.is_race(entry)) {
            None => ("yes\n".to_string(), 0),
            Some(before) => (format!("no {}\n", before + 1), 1),
        },
        Question::Merge => unreachable!("it has no trace"),
    })
}

// One report of two: of two races of one location the one whose second access comes first, or that of the first report.
fn merged(first: &[u8], second: &[u8]) -> Result<(String, i32), String> {
    let mut kept: BTreeMap<u64, Race> = BTreeMap::new();
    for (report, number) in [(first, 1), (second, 2)] {
        for race in entries_of(report).map_err(|line| format!("report {number} line {line}: bad"))? {
            if kept.get(&race.location).is_none_or(|other| race.second.1 < other.second.1) {
                kept.insert(race.location, race);
            }
        }
    }
    let told: Vec<Race> = kept.into_values().collect();
    Ok((report_text(&told), !told.is_empty() as i32))
}

pub fn report_text(races: &[Race]) -> String {
    let lines: String = races.iter().map(race_line).collect();
    format!("races {}\n{lines}", races.len())
}

fn race_line(race: &Race) -> String {
    let Race { location, first, second } = race;
    format!("race {location} {} {} {} {}\n", first.0.word(), first.1, second.0.word(), second.1)
}

/// The longest line of a trace has so many bytes before its LF.
const LONGEST: usize = 26;

/// The records of the text of a trace, or what is said of its first fault.
pub fn records_of(text: &[u8], deepest: usize) -> Result<Vec<Record>, String> {
    let (mut records, mut rest, mut line) = (Vec::new(), text, 1u64);
    let mut version = Version::One;
    // How many procedures are active.
    let mut active = 1;
    loop {
        let judged = &rest[..rest.len().min(LONGEST + 1)];
        let Some(end) = judged.iter().position(|byte| *byte == b'\n') else {
            if judged.len() > LONGEST {
                return Err(bad_line(line));
            }
            if !rest.is_empty() || line == 1 {
                return Err(format!("line {line}: truncated"));
            }
            break;
        };
        let body = &rest[..end];
        rest = &rest[end + 1..];
        if line == 1 {
            version = version_of(body).ok_or_else(|| bad_line(1))?;
        } else {
            let record = record_of(version, body).ok_or_else(|| bad_line(line))?;
            let place = line - 1;
            match record {
                _ if active == 0 => return Err(format!("place {place}: after end")),
                Record::Spawn | Record::Call if active > deepest => return Err(format!("place {place}: too deep")),
                Record::Spawn | Record::Call => active += 1,
                Record::Return => active -= 1,
                _ => (),
            }
            records.push(record);
        }
        line += 1;
    }
    if active > 0 {
        return Err(format!("place {}: unfinished", records.len() + 1));
    }
    Ok(records)
}

fn bad_line(line: u64) -> String {
    format!("line {line}: {}", if line == 1 { "header" } else { "bad line" })
}

fn version_of(body: &[u8]) -> Option<Version> {
    [Version::One, Version::Two].into_iter().find(|version| version.header().as_bytes() == body)
}

fn record_of(version: Version, body: &[u8]) -> Option<Record> {
    let words: Vec<&[u8]> = body.split(|byte| *byte == b' ').collect();
    match words[..] {
        [b"spawn"] => Some(Record::Spawn),
        [b"call"] if version == Version::Two => Some(Record::Call),
        [b"return"] => Some(Record::Return),
        [b"sync"] => Some(Record::Sync),
        [kind, location] => Some(Record::Access(kind_of(kind)?, decimal_of(location)?)),
        _ => None,
    }
}

fn kind_of(word: &[u8]) -> Option<Kind> {
    [Kind::Read, Kind::Write].into_iter().find(|kind| kind.word().as_bytes() == word)
}

// `0`, or a digit from 1 to 9 and then digits, of value below 2^64.
fn decimal_of(word: &[u8]) -> Option<u64> {
    let is_spelled_well = match word {
        [] => false,
        [b'0'] => true,
        [first, ..] => *first != b'0' && word.iter().all(u8::is_ascii_digit),
    };
    let mut value = 0u128;
    for digit in word.iter().filter(|_| is_spelled_well && word.len() <= 20) {
        value = 10 * value + (digit - b'0') as u128;
    }
    (is_spelled_well && word.len() <= 20).then_some(value)?.try_into().ok()
}

const LAST_PLACE: u64 = 1 << 48;

/// The entries of the text of a report, or the number of its first line that may not stand there.
pub fn entries_of(text: &[u8]) -> Result<Vec<Race>, u64> {
    let mut rest = text;
    let count = line_of(&mut rest).and_then(count_of).ok_or(1u64)?;
    let mut entries: Vec<Race> = Vec::new();
    while (entries.len() as u64) < count {
        let entry = line_of(&mut rest).and_then(entry_of);
        let rises = |entry: &Race| entries.last().is_none_or(|last| last.location < entry.location);
        match entry.filter(rises) {
            Some(entry) => entries.push(entry),
            None => return Err(entries.len() as u64 + 2),
        }
    }
    if rest.is_empty() {
        Ok(entries)
    } else {
        Err(count + 2)
    }
}

// The next line without its LF.
fn line_of<'a>(rest: &mut &'a [u8]) -> Option<&'a [u8]> {
    let end = rest.iter().position(|byte| *byte == b'\n')?;
    let line = &rest[..end];
    *rest = &rest[end + 1..];
    Some(line)
}

fn count_of(line: &[u8]) -> Option<u64> {
    decimal_of(line.strip_prefix(b"races ")?)
}

fn entry_of(line: &[u8]) -> Option<Race> {
    let words: Vec<&[u8]> = line.split(|byte| *byte == b' ').collect();
    let [b"race", location, one, i, other, j] = words[..] else {
        return None;
    };
    let (i, j) = (decimal_of(i)?, decimal_of(j)?);
    let entry = Race { location: decimal_of(location)?, first: (kind_of(one)?, i), second: (kind_of(other)?, j) };
    let one_writes = [entry.first.0, entry.second.0].contains(&Kind::Write);
    (1 <= i && i < j && j <= LAST_PLACE && one_writes).then_some(entry)
}

fn race(location: u64, first: (Kind, usize), second: (Kind, usize)) -> Race {
    let [first, second] = [first, second].map(|(kind, place)| (kind, place as u64));
    Race { location, first, second }
}

/// The dag of a well nested trace. Places count from 1.
pub struct Dag {
    pub records: Vec<Record>,
    depths: Vec<usize>,
    // Of each place those to which an edge leads from it.
    next: Vec<Vec<usize>>,
    // Of each place a bit for each place to which a path of an edge or more leads.
    paths: Vec<Vec<u64>>,
}

impl Dag {
    pub fn new(records: Vec<Record>) -> Dag {
        let mut depths = Vec::new();
        let mut depth = 0;
        for record in &records {
            depths.push(depth);
            match record {
                Record::Spawn | Record::Call => depth += 1,
                Record::Return if depth > 0 => depth -= 1,
                _ => (),
            }
        }
        let mut dag = Dag { records, depths, next: Vec::new(), paths: Vec::new() };
        dag.next = (1..=dag.records.len()).map(|i| dag.edges_from(i)).collect();
        dag.paths = dag.all_paths();
        dag
    }

    pub fn at(&self, place: usize) -> Record {
        self.records[place - 1]
    }

    fn depth(&self, place: usize) -> usize {
        self.depths[place - 1]
    }

    fn joins_at(&self, place: usize) -> bool {
        matches!(self.at(place), Record::Sync | Record::Return)
    }

    // What opened the procedure that executes a place: the record at the last earlier place that is one less deep.
    fn opener(&self, place: usize) -> Option<Record> {
        (1..place).rev().find(|k| self.depth(*k) + 1 == self.depth(place)).map(|k| self.at(k))
    }

    fn edges_from(&self, i: usize) -> Vec<usize> {
        let (record, depth, last) = (self.at(i), self.depth(i), self.records.len());
        let mut edges = Vec::new();
        if record != Record::Return {
            // The continuation: the same depth, and every place between is deeper.
            edges.extend((i + 1..=last).find(|k| self.depth(*k) <= depth).filter(|k| self.depth(*k) == depth));
        }
        match record {
            // To the child's first place.
            Record::Spawn | Record::Call => edges.push(i + 1),
            Record::Return => match self.opener(i) {
                // A called procedure's return leads to the next place.
                Some(Record::Call) => edges.push(i + 1),
                // The join of a spawned one: the first later place of the parent that is a sync or a return.
                Some(Record::Spawn) => {
                    edges.extend((i + 1..=last).find(|k| self.depth(*k) + 1 == depth && self.joins_at(*k)));
                }
                // The root's.
                None => (),
                Some(_) => unreachable!("a spawn or a call opens a procedure"),
            },
            _ => (),
        }
        edges
    }

    // Edges lead to later places, so the last place comes first.
    fn all_paths(&self) -> Vec<Vec<u64>> {
        let count = self.records.len();
        let mut paths = vec![vec![0u64; count / 64 + 1]; count];
        for i in (1..=count).rev() {
            let mut here = vec![0u64; count / 64 + 1];
            for j in &self.next[i - 1] {
                here[j / 64] |= 1 << (j % 64);
                for (word, more) in here.iter_mut().zip(&paths[j - 1]) {
                    *word |= more;
                }
            }
            paths[i - 1] = here;
        }
        paths
    }

    fn leads(&self, i: usize, j: usize) -> bool {
        i == j || self.paths[i - 1][j / 64] >> (j % 64) & 1 == 1
    }

    fn is_parallel(&self, i: usize, j: usize) -> bool {
        i != j && !self.leads(i, j) && !self.leads(j, i)
    }

    /// The greatest number of records on a path.
    fn span(&self) -> usize {
        let mut longest = vec![1; self.records.len()];
        for i in (1..=self.records.len()).rev() {
            for j in &self.next[i - 1] {
                longest[i - 1] = longest[i - 1].max(longest[j - 1] + 1);
            }
        }
        longest.into_iter().max().expect("a record")
    }

    /// The accesses of a location in trace order.
    pub fn accesses(&self, location: u64) -> Vec<(Kind, usize)> {
        let access = |place| match self.at(place) {
            Record::Access(kind, at) if at == location => Some((kind, place)),
            _ => None,
        };
        (1..=self.records.len()).filter_map(access).collect()
    }

    pub fn locations(&self) -> Vec<u64> {
        let location = |record: &Record| match record {
            Record::Access(_, location) => Some(*location),
            _ => None,
        };
        self.records.iter().filter_map(location).collect::<BTreeSet<u64>>().into_iter().collect()
    }

    /// All races of a location, by the second place, then by the first.
    pub fn races(&self, location: u64) -> Vec<Race> {
        let accesses = self.accesses(location);
        let mut races = Vec::new();
        for (before, second) in accesses.iter().enumerate() {
            let firsts = accesses[..before].iter().filter(|first| self.do_race(**first, *second));
            races.extend(firsts.map(|first| race(location, *first, *second)));
        }
        races
    }

    // Whether two accesses of one location race, of which the first comes before the second.
    fn do_race(&self, first: (Kind, usize), second: (Kind, usize)) -> bool {
        let one_writes = first.0 == Kind::Write || second.0 == Kind::Write;
        first.1 < second.1 && one_writes && self.is_parallel(first.1, second.1)
    }

    fn is_race(&self, race: &Race) -> bool {
        let [first, second] = [race.first, race.second].map(|(kind, place)| (kind, place as usize));
        let is_there = |(kind, place): (Kind, usize)| {
            place <= self.records.len() && self.at(place) == Record::Access(kind, race.location)
        };
        is_there(first) && is_there(second) && self.do_race(first, second)
    }

    // Whether a place lies in the part of the procedure that is opened at f: every place from f on is deeper. All lie in
    // that of the root, which is opened at 0.
    fn holds(&self, f: usize, place: usize) -> bool {
        let opens = |f: usize| matches!(self.at(f), Record::Spawn | Record::Call);
        f == 0 || f < place && opens(f) && (f + 1..=place).all(|k| self.depth(f) < self.depth(k))
    }

    // The procedures that hold a place, from the root on.
    fn holders(&self, place: usize) -> Vec<usize> {
        (0..place).filter(|f| self.holds(*f, place)).collect()
    }

    /// What is said of a race: where its accesses meet, what was opened on the way to each, and where that waits next.
    fn explanation(&self, race: &Race) -> String {
        let [i, j] = [race.first.1 as usize, race.second.1 as usize];
        let holders = [self.holders(i), self.holders(j)];
        let meeting = *holders[0].iter().rfind(|f| holders[1].contains(f)).expect("the root holds both");
        let mut text = race_line(race) + &format!("meet {meeting}\n");
        for (word, holders, access) in [("first", &holders[0], race.first), ("second", &holders[1], race.second)] {
            text += word;
            for f in holders.iter().filter(|f| **f > meeting) {
                let opened = if self.at(*f) == Record::Spawn { "spawn" } else { "call" };
                text += &format!(" {opened} {f}");
            }
            text += &format!(" {} {}\n", access.0.word(), access.1);
        }
        let level = if meeting == 0 { 0 } else { self.depth(meeting) + 1 };
        let is_own = |k: &usize| self.holds(meeting, *k) && self.depth(*k) == level;
        if let Some(joined) = (j + 1..=self.records.len()).filter(is_own).find(|k| self.joins_at(*k)) {
            text += &format!("joined {joined}\n");
        }
        text
    }

    /// The race that is told of each racy location, by ascending location.
    pub fn report(&self) -> Vec<Race> {
        let mut accesses: BTreeMap<u64, Vec<(Kind, usize)>> = BTreeMap::new();
        for (before, record) in self.records.iter().enumerate() {
            if let Record::Access(kind, location) = record {
                accesses.entry(*location).or_default().push((*kind, before + 1));
            }
        }
        accesses.iter().filter_map(|(location, accesses)| self.told(*location, accesses)).collect()
    }

    fn told(&self, location: u64, accesses: &[(Kind, usize)]) -> Option<Race> {
        // The second access is the first that races with an earlier one.
        let is_second = |at: &usize| accesses[..*at].iter().any(|first| self.do_race(*first, accesses[*at]));
        let at = (0..accesses.len()).find(is_second)?;
        let (before, second) = (&accesses[..at], accesses[at]);
        // The first is the last write before that, where they are parallel, otherwise the kept reader.
        let last_write = before.iter().copied().rfind(|(kind, _)| *kind == Kind::Write);
        let is_parallel = |first: &(Kind, usize)| self.is_parallel(first.1, second.1);
        let first = last_write.filter(is_parallel).or_else(|| self.kept_reader(before));
        let told = race(location, first.expect("a race has a first access"), second);
        assert!(self.is_race(&told), "the race that is told is a race");
        Some(told)
    }

    // At first the first read; a later read takes its place where a path leads from the kept one to it.
    fn kept_reader(&self, accesses: &[(Kind, usize)]) -> Option<(Kind, usize)> {
        let mut reads = accesses.iter().copied().filter(|(kind, _)| *kind == Kind::Read);
        let first = reads.next()?;
        Some(reads.fold(first, |kept, read| if self.leads(kept.1, read.1) { read } else { kept }))
    }
}
