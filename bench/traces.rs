//! Writes the trace of a fork-join program on standard output.
//!
//!     traces SHAPE SIZE [--version 1|2] [--elements] [--races K --report FILE]
//!
//! SHAPE is one of fib, nqueens, matmul, cilksort, callsort, heat, lu and spawnloop, and SIZE one of tiny, small and
//! large: some kilobytes, 20 megabytes and 200 megabytes. None of the programs has a race.
//!
//! The text is of version 1, or of the one that `--version` names. callsort is cilksort with ordinary calls: it calls
//! the last of the sorts and merges that run beside each other, and each last merge. It is always of version 2.
//!
//! A location is an address, a multiple of the size of an element: 4 bytes for both sorts, 8 for the others. With
//! `--elements` it is that address divided by that size, so that neighbours in an array have neighbouring numbers.
//!
//! With `--races K` each third spawn gets a race, K in all: the child and its parent, which hasn't synced, access one
//! location that nobody else does. FILE gets the report that a detector has to give.
use std::env;
use std::fmt::Arguments;
use std::fs;
use std::io::{self, BufWriter, StdoutLock, Write};
use std::ops::Range;
use std::process::{self, ExitCode};

/// What a program does is written as it happens.
struct Trace {
    out: BufWriter<StdoutLock<'static>>,
    place: u64,
    spawns: u64,
    unit: u64,
    memory: u64,
    planted: Vec<Race>,
    to_plant: usize,
}

/// A race that was put into a program on purpose.
struct Race {
    location: u64,
    kinds: [&'static str; 2],
    places: [u64; 2],
}

const KINDS: [[&str; 2]; 3] = [["write", "write"], ["read", "write"], ["write", "read"]];
const BETWEEN_RACES: u64 = 3;
const PLANTED_AT: u64 = 0x7f00_0000_0000;
const DATA_AT: u64 = 0x5500_0000_0000;

impl Trace {
    fn new(version: u8, unit: u64, to_plant: usize) -> Trace {
        let out = BufWriter::with_capacity(1 << 20, io::stdout().lock());
        let mut trace = Trace { out, place: 0, spawns: 0, unit, memory: DATA_AT, planted: Vec::new(), to_plant };
        trace.put(format_args!("trace {version}"));
        trace
    }

    fn put(&mut self, line: Arguments) {
        if let Err(error) = writeln!(self.out, "{line}") {
            eprintln!("traces: {error}");
            process::exit(2);
        }
    }

    fn record(&mut self, line: Arguments) {
        self.place += 1;
        self.put(line);
    }

    /// Spawns a child and runs it.
    fn spawn(&mut self, child: impl FnOnce(&mut Trace)) {
        self.record(format_args!("spawn"));
        self.spawns += 1;
        let race = (self.spawns % BETWEEN_RACES == 0 && self.planted.len() < self.to_plant).then(|| self.plant());
        child(self);
        self.record(format_args!("return"));
        if let Some(race) = race {
            self.ripen(race);
        }
    }

    /// Calls a procedure and runs it.
    fn call(&mut self, called: impl FnOnce(&mut Trace)) {
        self.record(format_args!("call"));
        called(self);
        self.record(format_args!("return"));
    }

    fn sync(&mut self) {
        self.record(format_args!("sync"));
    }

    fn read(&mut self, address: u64) {
        self.record(format_args!("read {}", address / self.unit));
    }

    fn write(&mut self, address: u64) {
        self.record(format_args!("write {}", address / self.unit));
    }

    // The child's access. Returns the number of the race.
    fn plant(&mut self) -> usize {
        let number = self.planted.len();
        let kinds = KINDS[number % KINDS.len()];
        let location = (PLANTED_AT + 8 * number as u64) / self.unit;
        self.record(format_args!("{} {location}", kinds[0]));
        self.planted.push(Race { location, kinds, places: [self.place, 0] });
        number
    }

    // The parent's access.
    fn ripen(&mut self, number: usize) {
        let Race { location, kinds, .. } = self.planted[number];
        self.record(format_args!("{} {location}", kinds[1]));
        self.planted[number].places[1] = self.place;
    }

    /// Memory that nothing else has, for so many elements.
    fn array(&mut self, elements: u64, size: u64) -> Array {
        let first = self.memory;
        self.memory += (elements * size).next_multiple_of(64);
        Array { first, size }
    }

    /// One variable, in memory that nothing else has.
    fn variable(&mut self) -> u64 {
        let address = self.memory;
        self.memory += 8;
        address
    }

    fn report(&self) -> String {
        let mut report = format!("races {}\n", self.planted.len());
        for Race { location, kinds, places } in &self.planted {
            report += &format!("race {location} {} {} {} {}\n", kinds[0], places[0], kinds[1], places[1]);
        }
        report
    }
}

#[derive(Clone, Copy)]
struct Array {
    first: u64,
    size: u64,
}

impl Array {
    fn at(self, index: usize) -> u64 {
        self.first + self.size * index as u64
    }
}

/// Numbers of Fibonacci: a spawn for each call, and the results in the caller's variables.
fn fib(trace: &mut Trace, n: u32, result: u64) {
    if n < 2 {
        return trace.write(result);
    }
    let (one, other) = (trace.variable(), trace.variable());
    trace.spawn(|trace| fib(trace, n - 1, one));
    trace.spawn(|trace| fib(trace, n - 2, other));
    trace.sync();
    trace.read(one);
    trace.read(other);
    trace.write(result);
}

/// All ways to place queens: a board of its own for each that can be placed, and a child that goes on with it.
fn nqueens(trace: &mut Trace, columns: &[usize], board: Array, result: u64, size: usize) {
    let row = columns.len();
    if row == size {
        return trace.write(result);
    }
    let counts = trace.array(size as u64, 8);
    for column in 0..size {
        trace.write(counts.at(column));
        let mut is_free = true;
        for (above, &other) in columns.iter().enumerate() {
            trace.read(board.at(above));
            if other == column || other.abs_diff(column) == row - above {
                is_free = false;
                break;
            }
        }
        if is_free {
            let next = trace.array(size as u64, 8);
            for above in 0..row {
                trace.read(board.at(above));
                trace.write(next.at(above));
            }
            trace.write(next.at(row));
            let columns = [columns, &[column]].concat();
            trace.spawn(|trace| nqueens(trace, &columns, next, counts.at(column), size));
        }
    }
    trace.sync();
    for column in 0..size {
        trace.read(counts.at(column));
    }
    trace.write(result);
}

/// A square part of a matrix, which is stored by rows.
#[derive(Clone, Copy)]
struct Square {
    all: Array,
    width: usize,
    corner: usize,
    side: usize,
}

impl Square {
    fn new(trace: &mut Trace, side: usize) -> Square {
        let all = trace.array((side * side) as u64, 8);
        Square { all, width: side, corner: 0, side }
    }

    fn at(self, row: usize, column: usize) -> u64 {
        self.all.at(self.corner + row * self.width + column)
    }

    /// The four quarters, by rows.
    fn quarters(self) -> [[Square; 2]; 2] {
        let side = self.side / 2;
        [0, side].map(|row| {
            [0, side].map(|column| Square { corner: self.corner + row * self.width + column, side, ..self })
        })
    }

    fn fill(self, trace: &mut Trace) {
        for row in 0..self.side {
            for column in 0..self.side {
                trace.write(self.at(row, column));
            }
        }
    }
}

/// Adds the product of two matrices to a third: eight products of quarters, four at a time.
fn matmul(trace: &mut Trace, sum: Square, left: Square, right: Square, block: usize) {
    if sum.side <= block {
        for row in 0..sum.side {
            for column in 0..sum.side {
                trace.read(sum.at(row, column));
                for between in 0..sum.side {
                    trace.read(left.at(row, between));
                    trace.read(right.at(between, column));
                }
                trace.write(sum.at(row, column));
            }
        }
        return;
    }
    let (sums, lefts, rights) = (sum.quarters(), left.quarters(), right.quarters());
    for between in 0..2 {
        for row in 0..2 {
            for column in 0..2 {
                trace.spawn(|trace| {
                    matmul(trace, sums[row][column], lefts[row][between], rights[between][column], block)
                });
            }
        }
        trace.sync();
    }
}

/// Numbers that are sorted by merging, and room for as many.
struct Sorting {
    values: [Vec<u32>; 2],
    arrays: [Array; 2],
    // Whether the last of several procedures is called and not spawned.
    calls: bool,
}

const CUTOFF: usize = 32;

impl Sorting {
    fn new(trace: &mut Trace, count: usize, calls: bool) -> Sorting {
        let arrays = [0, 1].map(|_| trace.array(count as u64, 4));
        let mut state = 1u64;
        let mut next = |index: usize| {
            trace.write(arrays[0].at(index));
            state = state.wrapping_mul(6364136223846793005).wrapping_add(1442695040888963407);
            (state >> 33) as u32
        };
        let values = [(0..count).map(&mut next).collect(), vec![0; count]];
        Sorting { values, arrays, calls }
    }

    // Runs the last of several procedures.
    fn last(&mut self, trace: &mut Trace, procedure: impl FnOnce(&mut Sorting, &mut Trace)) {
        if self.calls {
            trace.call(|trace| procedure(self, trace));
        } else {
            trace.spawn(|trace| procedure(self, trace));
        }
    }

    fn get(&self, trace: &mut Trace, side: usize, index: usize) -> u32 {
        trace.read(self.arrays[side].at(index));
        self.values[side][index]
    }

    fn set(&mut self, trace: &mut Trace, side: usize, index: usize, value: u32) {
        trace.write(self.arrays[side].at(index));
        self.values[side][index] = value;
    }

    /// Sorts a part in place: four quarters, and then two merges and one.
    fn sort(&mut self, trace: &mut Trace, part: Range<usize>) {
        if part.len() <= CUTOFF {
            return self.insert(trace, part);
        }
        let quarter = part.len() / 4;
        let [a, b, c, d] = [0, 1, 2, 3].map(|k| part.start + k * quarter);
        let end = part.end;
        for quarter in [a..b, b..c, c..d] {
            trace.spawn(|trace| self.sort(trace, quarter));
        }
        self.last(trace, |sorting, trace| sorting.sort(trace, d..end));
        trace.sync();
        trace.spawn(|trace| self.merge(trace, 0, a..b, b..c, a));
        self.last(trace, |sorting, trace| sorting.merge(trace, 0, c..d, d..end, c));
        trace.sync();
        if self.calls {
            return trace.call(|trace| self.merge(trace, 1, a..c, c..end, a));
        }
        self.merge(trace, 1, a..c, c..end, a);
    }

    fn insert(&mut self, trace: &mut Trace, part: Range<usize>) {
        for index in part.start + 1..part.end {
            let value = self.get(trace, 0, index);
            let mut to = index;
            while to > part.start {
                let before = self.get(trace, 0, to - 1);
                if before <= value {
                    break;
                }
                self.set(trace, 0, to, before);
                to -= 1;
            }
            self.set(trace, 0, to, value);
        }
    }

    /// Merges two sorted parts of one side into the other side, from an index on. The middle of the longer part divides
    /// the shorter one.
    fn merge(&mut self, trace: &mut Trace, side: usize, one: Range<usize>, other: Range<usize>, to: usize) {
        let (long, short) = if one.len() < other.len() { (other, one) } else { (one, other) };
        if long.len() + short.len() <= 2 * CUTOFF {
            return self.merge_all(trace, side, long, short, to);
        }
        let middle = (long.start + long.end) / 2;
        let value = self.get(trace, side, middle);
        let cut = self.first_not_below(trace, side, short.clone(), value);
        let between = to + (middle - long.start) + (cut - short.start);
        self.set(trace, 1 - side, between, value);
        trace.spawn(|trace| self.merge(trace, side, long.start..middle, short.start..cut, to));
        self.last(trace, |sorting, trace| {
            sorting.merge(trace, side, middle + 1..long.end, cut..short.end, between + 1)
        });
        trace.sync();
    }

    fn first_not_below(&self, trace: &mut Trace, side: usize, part: Range<usize>, value: u32) -> usize {
        let (mut low, mut high) = (part.start, part.end);
        while low < high {
            let middle = (low + high) / 2;
            if self.get(trace, side, middle) < value {
                low = middle + 1;
            } else {
                high = middle;
            }
        }
        low
    }

    fn merge_all(
        &mut self,
        trace: &mut Trace,
        side: usize,
        mut one: Range<usize>,
        mut other: Range<usize>,
        to: usize,
    ) {
        for index in to..to + one.len() + other.len() {
            let takes_one = other.is_empty()
                || !one.is_empty() && self.get(trace, side, one.start) <= self.get(trace, side, other.start);
            let from = if takes_one { one.next() } else { other.next() }.expect("an element is left");
            let value = self.get(trace, side, from);
            self.set(trace, 1 - side, index, value);
        }
    }
}

/// One step of heat in a plate: each inner point from its neighbours, with the rows halved.
fn heat(trace: &mut Trace, old: Square, new: Square, rows: Range<usize>) {
    if rows.len() > 4 {
        let middle = (rows.start + rows.end) / 2;
        trace.spawn(|trace| heat(trace, old, new, rows.start..middle));
        trace.spawn(|trace| heat(trace, old, new, middle..rows.end));
        return trace.sync();
    }
    for row in rows {
        for column in 1..old.side - 1 {
            for (row, column) in
                [(row - 1, column), (row + 1, column), (row, column - 1), (row, column + 1), (row, column)]
            {
                trace.read(old.at(row, column));
            }
            trace.write(new.at(row, column));
        }
    }
}

/// The factors of a matrix, lower and upper, in its place: by quarters, as far as blocks.
fn lu(trace: &mut Trace, matrix: Square, block: usize) {
    let side = matrix.side;
    if side > block {
        let [[first, right], [below, last]] = matrix.quarters();
        lu(trace, first, block);
        trace.spawn(|trace| solve_lower(trace, right, first, block));
        trace.spawn(|trace| solve_upper(trace, below, first, block));
        trace.sync();
        matmul(trace, last, below, right, block);
        return lu(trace, last, block);
    }
    for step in 0..side {
        for row in step + 1..side {
            trace.read(matrix.at(row, step));
            trace.read(matrix.at(step, step));
            trace.write(matrix.at(row, step));
            for column in step + 1..side {
                subtract(trace, matrix.at(row, column), matrix.at(step, column));
            }
        }
    }
}

/// Solves `lower * x = matrix` in the matrix's place: its left and its right half are two problems.
fn solve_lower(trace: &mut Trace, matrix: Square, lower: Square, block: usize) {
    if matrix.side > block {
        let (parts, [[first, _], [below, last]]) = (matrix.quarters(), lower.quarters());
        for (above, under) in parts[0].into_iter().zip(parts[1]) {
            trace.spawn(|trace| {
                solve_lower(trace, above, first, block);
                matmul(trace, under, below, above, block);
                solve_lower(trace, under, last, block);
            });
        }
        return trace.sync();
    }
    for step in 0..matrix.side {
        for row in step + 1..matrix.side {
            trace.read(lower.at(row, step));
            for column in 0..matrix.side {
                subtract(trace, matrix.at(row, column), matrix.at(step, column));
            }
        }
    }
}

/// Solves `x * upper = matrix` in the matrix's place: its upper and its lower half are two problems.
fn solve_upper(trace: &mut Trace, matrix: Square, upper: Square, block: usize) {
    if matrix.side > block {
        let (parts, [[first, right], [_, last]]) = (matrix.quarters(), upper.quarters());
        for half in parts {
            trace.spawn(|trace| {
                solve_upper(trace, half[0], first, block);
                matmul(trace, half[1], half[0], right, block);
                solve_upper(trace, half[1], last, block);
            });
        }
        return trace.sync();
    }
    for row in 0..matrix.side {
        for step in 0..matrix.side {
            trace.read(upper.at(step, step));
            trace.read(matrix.at(row, step));
            trace.write(matrix.at(row, step));
            for column in step + 1..matrix.side {
                subtract(trace, matrix.at(row, column), upper.at(step, column));
            }
        }
    }
}

fn subtract(trace: &mut Trace, from: u64, what: u64) {
    trace.read(what);
    trace.read(from);
    trace.write(from);
}

/// Children of one loop: each reads four shared variables and writes one of its own.
fn spawnloop(trace: &mut Trace, children: usize) {
    let (shared, own) = (trace.array(4, 8), trace.array(children as u64, 8));
    (0..4).for_each(|index| trace.write(shared.at(index)));
    for child in 0..children {
        trace.spawn(|trace| {
            (0..4).for_each(|index| trace.read(shared.at(index)));
            trace.write(own.at(child));
        });
    }
    trace.sync();
    (0..children).for_each(|child| trace.read(own.at(child)));
}

struct Asked {
    shape: String,
    // 0, 1 and 2 are tiny, small and large.
    size: usize,
    version: u8,
    by_elements: bool,
    races: usize,
    report: Option<String>,
}

fn asked() -> Option<Asked> {
    let mut words = env::args().skip(1);
    let shape = words.next()?;
    let size = words.next()?;
    let size = ["tiny", "small", "large"].iter().position(|it| *it == size)?;
    let version = if shape == "callsort" { 2 } else { 1 };
    let mut asked = Asked { shape, size, version, by_elements: false, races: 0, report: None };
    while let Some(word) = words.next() {
        match word.as_str() {
            "--version" => {
                asked.version = words.next()?.parse().ok().filter(|it| (version..=2).contains(it))?;
            }
            "--elements" => asked.by_elements = true,
            "--races" => asked.races = words.next()?.parse().ok()?,
            "--report" => asked.report = Some(words.next()?),
            _ => return None,
        }
    }
    Some(asked)
}

fn run(trace: &mut Trace, shape: &str, size: usize) -> Option<()> {
    match shape {
        "fib" => {
            let result = trace.variable();
            fib(trace, [9, 26, 30][size], result);
            trace.read(result);
        }
        "nqueens" => {
            let size = [5, 9, 11][size];
            let (result, board) = (trace.variable(), trace.array(size as u64, 8));
            nqueens(trace, &[], board, result, size);
        }
        "matmul" => {
            let (side, block) = [(8, 2), (80, 10), (160, 10)][size];
            let [sum, left, right] = [0, 1, 2].map(|_| Square::new(trace, side));
            [sum, left, right].iter().for_each(|matrix| matrix.fill(trace));
            matmul(trace, sum, left, right, block);
        }
        "cilksort" | "callsort" => {
            let count = [300, 18_000, 150_000][size];
            let mut sorting = Sorting::new(trace, count, shape == "callsort");
            sorting.sort(trace, 0..count);
            assert!(sorting.values[0].is_sorted());
        }
        "heat" => {
            let (side, steps) = [(12, 2), (128, 10), (256, 25)][size];
            let mut plates = [0, 1].map(|_| Square::new(trace, side));
            plates.iter().for_each(|plate| plate.fill(trace));
            for _ in 0..steps {
                heat(trace, plates[0], plates[1], 1..side - 1);
                plates.swap(0, 1);
            }
        }
        "lu" => {
            let (side, block) = [(12, 3), (112, 14), (240, 15)][size];
            let matrix = Square::new(trace, side);
            matrix.fill(trace);
            lu(trace, matrix, block);
        }
        "spawnloop" => spawnloop(trace, [400, 150_000, 1_500_000][size]),
        _ => return None,
    }
    Some(())
}

fn main() -> ExitCode {
    let usage = "traces fib|nqueens|matmul|cilksort|callsort|heat|lu|spawnloop tiny|small|large \
                 [--version 1|2] [--elements] [--races K --report FILE]";
    let Some(asked) = asked() else {
        eprintln!("{usage}");
        return ExitCode::from(2);
    };
    let element = if asked.shape.ends_with("sort") { 4 } else { 8 };
    let mut trace = Trace::new(asked.version, if asked.by_elements { element } else { 1 }, asked.races);
    if run(&mut trace, &asked.shape, asked.size).is_none() {
        eprintln!("{usage}");
        return ExitCode::from(2);
    }
    trace.record(format_args!("return"));
    if let Some(name) = &asked.report {
        if let Err(error) = fs::write(name, trace.report()) {
            eprintln!("traces: {name}: {error}");
            return ExitCode::from(2);
        }
    }
    if let Err(error) = trace.out.flush() {
        eprintln!("traces: {error}");
        return ExitCode::from(2);
    }
    ExitCode::SUCCESS
}
