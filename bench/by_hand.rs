//! SP-bags by hand: the algorithm of `spbags check`, in plain Rust, in one thread, and with nothing proved.
//!
//!     by_hand [--bags sets|numbers] FILE
//!
//! It prints the report that `spbags check FILE` prints, and ends with the same status. FILE may be `-`. The bags are
//! disjoint sets, as the algorithm was published, or two numbers for each active procedure, which suffice for traces
//! without calls. Shadow memory is the standard library's hash map of locations, under a hash of one multiplication.
mod text;

use std::collections::HashMap;
use std::env;
use std::fs::File;
use std::hash::{BuildHasherDefault, Hasher};
use std::io::{self, Read, Write};
use std::mem;
use std::process::ExitCode;
use text::{Fault, Record, Records};

const DEEPEST: usize = 65536;

/// The S-bag and the P-bag of each active procedure. Procedures are numbered by their spawns and calls; the root is 0.
trait Bags {
    fn new() -> Self;
    fn spawn(&mut self);
    /// Whether these bags know calls; if so, it opens the called procedure.
    fn call(&mut self) -> bool;
    fn sync(&mut self);
    /// The root never returns by this call.
    fn end_child(&mut self);
    /// Whether a completed procedure stands in a P-bag; an active one doesn't.
    fn is_in_p(&mut self, procedure: u32) -> bool;
    fn current(&self) -> u32;
    /// How many procedures are active.
    fn active(&self) -> usize;
}

/// Disjoint sets of procedures: by rank, and with paths made shorter at each look-up.
struct Sets {
    nodes: Vec<Node>,
    active: Vec<Heads>,
}

#[derive(Clone, Copy)]
struct Node {
    above: u32,
    rank: u8,
    // At the head of a set: whether it is a P-bag.
    is_p: bool,
}

#[derive(Clone, Copy)]
struct Heads {
    is_called: bool,
    procedure: u32,
    s: u32,
    p: Option<u32>,
}

impl Sets {
    fn add(&mut self, is_called: bool) {
        let new = u32::try_from(self.nodes.len()).expect("at most 2^32 procedures");
        self.nodes.push(Node { above: new, rank: 0, is_p: false });
        self.active.push(Heads { is_called, procedure: new, s: new, p: None });
    }

    #[inline]
    fn head_of(&mut self, member: u32) -> u32 {
        let mut head = member;
        while self.nodes[head as usize].above != head {
            head = self.nodes[head as usize].above;
        }
        let mut at = member;
        while at != head {
            at = mem::replace(&mut self.nodes[at as usize].above, head);
        }
        head
    }

    // Joins two sets by their heads.
    #[inline]
    fn join(&mut self, one: u32, other: u32, is_p: bool) -> u32 {
        let [one_rank, other_rank] = [one, other].map(|head| self.nodes[head as usize].rank);
        let (high, low) = if one_rank < other_rank { (other, one) } else { (one, other) };
        self.nodes[low as usize].above = high;
        let node = &mut self.nodes[high as usize];
        node.rank += (one_rank == other_rank) as u8;
        node.is_p = is_p;
        high
    }

    fn top(&mut self) -> &mut Heads {
        self.active.last_mut().expect("the root is active")
    }
}

impl Bags for Sets {
    fn new() -> Sets {
        let mut sets = Sets { nodes: Vec::new(), active: Vec::new() };
        sets.add(false);
        sets
    }

    fn spawn(&mut self) {
        self.add(false);
    }

    fn call(&mut self) -> bool {
        self.add(true);
        true
    }

    fn sync(&mut self) {
        let Heads { s, p, .. } = *self.top();
        if let Some(p) = p {
            let s = self.join(s, p, false);
            *self.top() = Heads { s, p: None, ..*self.top() };
        }
    }

    fn end_child(&mut self) {
        self.sync();
        let Heads { s: child, is_called, .. } = self.active.pop().expect("a child is active");
        if is_called {
            let s = self.top().s;
            self.top().s = self.join(s, child, false);
            return;
        }
        let p = match self.top().p {
            Some(p) => self.join(p, child, true),
            None => {
                self.nodes[child as usize].is_p = true;
                child
            }
        };
        self.top().p = Some(p);
    }

    #[inline]
    fn is_in_p(&mut self, procedure: u32) -> bool {
        let head = self.head_of(procedure);
        self.nodes[head as usize].is_p
    }

    fn current(&self) -> u32 {
        self.active[self.active.len() - 1].procedure
    }

    fn active(&self) -> usize {
        self.active.len()
    }
}

/// Two numbers for each active procedure: its own, and the first of its P-bag, which ends where the next active
/// procedure begins.
struct Numbers {
    active: Vec<[u32; 2]>,
    count: u32,
}

impl Bags for Numbers {
    fn new() -> Numbers {
        Numbers { active: vec![[0, u32::MAX]], count: 1 }
    }

    fn spawn(&mut self) {
        // What the parent has in its P-bag ends here; where it has nothing, the child's number says so.
        let [_, first] = self.active.last_mut().expect("the root is active");
        *first = (*first).min(self.count);
        self.active.push([self.count, u32::MAX]);
        self.count += 1;
    }

    fn call(&mut self) -> bool {
        false
    }

    fn sync(&mut self) {
        let [_, first] = self.active.last_mut().expect("the root is active");
        *first = u32::MAX;
    }

    fn end_child(&mut self) {
        self.active.pop();
    }

    #[inline]
    fn is_in_p(&mut self, procedure: u32) -> bool {
        let keeper = self.active.partition_point(|&[own, _]| own <= procedure) - 1;
        procedure >= self.active[keeper][1]
    }

    fn current(&self) -> u32 {
        self.active[self.active.len() - 1][0]
    }

    fn active(&self) -> usize {
        self.active.len()
    }
}

/// An access that is kept: who made it, and where it stands in the trace.
#[derive(Clone, Copy)]
#[repr(C, packed(4))]
struct Kept {
    procedure: u32,
    place: u64,
}

const NOBODY: Kept = Kept { procedure: u32::MAX, place: 0 };
/// Stands for the writer where the location's race was told: nothing more is kept of it.
const TOLD: Kept = Kept { procedure: u32::MAX, place: u64::MAX };

#[derive(Clone, Copy)]
struct Cell {
    writer: Kept,
    reader: Kept,
}

const UNTOUCHED: Cell = Cell { writer: NOBODY, reader: NOBODY };

#[derive(Default)]
struct Multiplied(u64);

impl Hasher for Multiplied {
    #[inline]
    fn write_u64(&mut self, location: u64) {
        let product = u128::from(location) * 0x9e37_79b9_7f4a_7c15;
        self.0 = product as u64 ^ (product >> 64) as u64;
    }

    fn write(&mut self, _: &[u8]) {
        unreachable!("locations alone are hashed")
    }

    fn finish(&self) -> u64 {
        self.0
    }
}

struct Race {
    location: u64,
    kinds: [&'static str; 2],
    places: [u64; 2],
}

struct Detector<B> {
    bags: B,
    cells: HashMap<u64, Cell, BuildHasherDefault<Multiplied>>,
    races: Vec<Race>,
    place: u64,
    has_returned: bool,
}

impl<B: Bags> Detector<B> {
    fn new() -> Detector<B> {
        Detector { bags: B::new(), cells: HashMap::default(), races: Vec::new(), place: 0, has_returned: false }
    }

    #[inline]
    fn take(&mut self, record: Record) -> Result<(), &'static str> {
        self.place += 1;
        if self.has_returned {
            return Err("after end");
        }
        match record {
            Record::Spawn | Record::Call if self.bags.active() > DEEPEST => return Err("too deep"),
            Record::Spawn => self.bags.spawn(),
            Record::Call if self.bags.call() => {}
            Record::Call => return Err("two numbers for each procedure don't suffice for a call"),
            Record::Return if self.bags.active() == 1 => self.has_returned = true,
            Record::Return => self.bags.end_child(),
            Record::Sync => self.bags.sync(),
            Record::Read(location) => self.touch(location, false),
            Record::Write(location) => self.touch(location, true),
        }
        Ok(())
    }

    #[inline]
    fn touch(&mut self, location: u64, is_write: bool) {
        let Detector { bags, cells, races, place, .. } = self;
        let cell = cells.entry(location).or_insert(UNTOUCHED);
        if cell.writer.place == TOLD.place {
            return;
        }
        let own = Kept { procedure: bags.current(), place: *place };
        let mut is_parallel =
            |kept: Kept| kept.place != 0 && kept.procedure != own.procedure && bags.is_in_p(kept.procedure);
        let rival = if is_parallel(cell.writer) {
            Some((cell.writer, "write"))
        } else if is_write && is_parallel(cell.reader) {
            Some((cell.reader, "read"))
        } else {
            None
        };
        if let Some((first, kind)) = rival {
            let kinds = [kind, if is_write { "write" } else { "read" }];
            races.push(Race { location, kinds, places: [first.place, own.place] });
            cell.writer = TOLD;
        } else if is_write {
            cell.writer = own;
        } else if !is_parallel(cell.reader) {
            cell.reader = own;
        }
    }
}

fn detect<B: Bags>(from: Box<dyn Read>) -> Result<Vec<Race>, String> {
    let told = |fault| match fault {
        Fault::Line { number, what } => format!("line {number}: {what}"),
        Fault::Device(error) => format!("cannot read: {error}"),
    };
    let mut records = Records::new(from).map_err(told)?;
    let mut detector = Detector::<B>::new();
    while let Some(record) = records.next().map_err(told)? {
        detector.take(record).map_err(|what| format!("place {}: {what}", detector.place))?;
    }
    if !detector.has_returned {
        return Err(format!("place {}: unfinished", detector.place + 1));
    }
    detector.races.sort_unstable_by_key(|race| race.location);
    Ok(detector.races)
}

fn report(races: &[Race]) -> Vec<u8> {
    let mut text = Vec::new();
    writeln!(text, "races {}", races.len()).expect("memory");
    for Race { location, kinds, places } in races {
        writeln!(text, "race {location} {} {} {} {}", kinds[0], places[0], kinds[1], places[1]).expect("memory");
    }
    text
}

fn main() -> ExitCode {
    let words: Vec<String> = env::args().skip(1).collect();
    let words: Vec<&str> = words.iter().map(String::as_str).collect();
    let (bags, name) = match words[..] {
        [name] => ("sets", name),
        ["--bags", bags @ ("sets" | "numbers"), name] => (bags, name),
        _ => {
            eprintln!("by_hand [--bags sets|numbers] FILE");
            return ExitCode::from(2);
        }
    };
    let opened: io::Result<Box<dyn Read>> = match name {
        "-" => Ok(Box::new(io::stdin())),
        _ => File::open(name).map(|file| Box::new(file) as Box<dyn Read>),
    };
    let answer = match opened {
        Err(_) => Err("cannot read".to_string()),
        Ok(from) if bags == "sets" => detect::<Sets>(from),
        Ok(from) => detect::<Numbers>(from),
    };
    match answer {
        Ok(races) if io::stdout().write_all(&report(&races)).is_ok() => ExitCode::from(!races.is_empty() as u8),
        Ok(_) => ExitCode::from(2),
        Err(fault) => {
            eprintln!("by_hand: {fault}");
            ExitCode::from(2)
        }
    }
}
