//! Asks the program about random traces and damaged texts, and compares its answers with those of the judge.
//!
//!     fuzz PROGRAM EXAMPLES ROOM FOUND [--seed N] [--seconds N]
//!
//! EXAMPLES is the folder of the examples, whose reports the judge has to tell. ROOM is a folder for the files that the
//! program reads, and a case that differs goes into a new folder in FOUND.
mod judge;
mod making;

use judge::{Answer, Dag, Ending, Question, Race, Record, Version};
use making::Random;
use std::collections::BTreeMap;
use std::env;
use std::fs::{self, File};
use std::io::{self, Write};
use std::os::fd::OwnedFd;
use std::os::unix::net::UnixDatagram;
use std::os::unix::process::ExitStatusExt;
use std::path::{Path, PathBuf};
use std::process::{Child, Command, ExitCode, Stdio};
use std::thread;
use std::time::{Duration, Instant, SystemTime};

/// A run that takes longer hangs.
const LIMIT: Duration = Duration::from_secs(60);
/// How long a differing case is made smaller at most.
const PATIENCE: Duration = Duration::from_secs(60);
/// A pipe takes so many bytes that nobody has read.
const WHOLE: usize = 60_000;
/// No read of the program asks for fewer bytes, so none cuts a piece.
const PIECE: usize = 4000;
const USUAL_DEPTH: usize = 65_536;
const COMMANDS: [&str; 6] = ["check", "explain", "pairs", "measure", "confirm", "merge"];

/// How a text comes to the program.
#[derive(Clone, Copy, PartialEq)]
enum Way {
    File,
    Pipe,
    /// Each read gets one piece; their lengths come from this seed.
    Pieces(u64),
}

#[derive(Clone)]
struct Case {
    command: &'static str,
    question: Question,
    about: &'static str,
    options: Vec<String>,
    deepest: usize,
    trace: Vec<u8>,
    report: Vec<u8>,
    way: Way,
    /// It is the report that doesn't come from a file.
    moves_report: bool,
}

impl Case {
    fn new(seed: u64, number: u64) -> Case {
        let random = &mut Random::new(seed, number);
        let command = COMMANDS[random.by_weight(&[6, 2, 2, 2, 4, 2])];
        let most = match command {
            "explain" | "pairs" => 500,
            "confirm" | "merge" => 1000,
            _ => 4000,
        };
        let version = random.pick(&[Version::One, Version::Two]);
        let records = making::records(random, version, most);
        let (mut options, deepest) = options(random, command, &records);
        let mut trace = making::text_of(version, &records);
        let kind = if records.contains(&Record::Call) { "a trace with calls" } else { "a trace" };
        let dag = Dag::new(records);
        let mut report = Vec::new();
        let (question, mut about) = match command {
            "check" => part(random, &mut options, kind),
            "explain" => (Question::Explain(location(random, &dag)), kind),
            "pairs" => (Question::Pairs(location(random, &dag)), kind),
            "measure" => (Question::Measure, kind),
            "merge" => {
                (trace, report) = two_reports(random, &dag);
                (Question::Merge, "reports")
            }
            _ => {
                report = judge::report_text(&dag.report()).into_bytes();
                (Question::Confirm, confirmed(random, &dag, &mut report))
            }
        };
        if random.once_in(if matches!(command, "confirm" | "merge") { 8 } else { 3 }) {
            making::damage(random, &mut trace);
            about = if command == "merge" { "a damaged report" } else { "a damaged trace" };
        }
        let moves_report = matches!(command, "confirm" | "merge") && random.once_in(2);
        let moved = if moves_report { &report } else { &trace };
        let way = match random.below(3) {
            1 if moved.len() <= WHOLE => Way::Pipe,
            2 if moved.len() <= WHOLE => Way::Pieces(random.next()),
            _ => Way::File,
        };
        Case { command, question, about, options, deepest, trace, report, way, moves_report }
    }

    /// What comes on standard input.
    fn moved(&self) -> &[u8] {
        match self.way {
            Way::File => &[],
            _ if self.moves_report => &self.report,
            _ => &self.trace,
        }
    }

    fn words(&self) -> Vec<String> {
        let name =
            |is_moved: bool, name: &str| if is_moved && self.way != Way::File { "-" } else { name }.to_string();
        let mut words = vec![self.command.to_string()];
        words.extend_from_slice(&self.options);
        words.push(name(!self.moves_report, "trace"));
        match self.question {
            Question::Explain(location) | Question::Pairs(location) => words.push(location.to_string()),
            Question::Confirm | Question::Merge => words.push(name(self.moves_report, "report")),
            _ => (),
        }
        words
    }

    fn has_report(&self) -> bool {
        matches!(self.question, Question::Confirm | Question::Merge)
    }

    fn pieces(&self) -> Vec<&[u8]> {
        let Way::Pieces(seed) = self.way else {
            return vec![self.moved()];
        };
        let (mut random, mut rest, mut pieces) = (Random::new(seed, 0), self.moved(), Vec::new());
        let most = random.pick(&[1, 2, 7, 26, 27, 28, 100, PIECE]).max(rest.len() / 200);
        while !rest.is_empty() {
            let (piece, more) = rest.split_at(random.within(1, most).min(rest.len()));
            pieces.push(piece);
            rest = more;
        }
        pieces
    }

    fn wanted(&self) -> Answer {
        judge::answer(self.question, self.deepest, &self.trace, &self.report)
    }
}

// Options for a trace, and how deep procedures may nest with them.
fn options(random: &mut Random, command: &str, records: &[Record]) -> (Vec<String>, usize) {
    let mut options = Vec::new();
    if command == "check" && !random.once_in(6) {
        let few = random.pick(&[1, 1, 2, 2, 3, 3, 4, 5, 6, 7, 8]);
        let shards = if random.once_in(12) { random.within(1, 64) } else { few };
        options.extend(["--shards".to_string(), shards.to_string()]);
    }
    if command == "check" && !random.once_in(6) {
        let capacity = random.pick(&[1, 1, 2, 3, 15, 16, 63, 64, 65, 127, 128, 129, 1024, 65536, 0, 0]);
        let any = (random.within(1, 65536) >> random.below(17)).max(1);
        options.extend(["--capacity".to_string(), if capacity == 0 { any } else { capacity }.to_string()]);
    }
    if command == "merge" || !random.once_in(4) {
        return (options, USUAL_DEPTH);
    }
    let opened = records.iter().filter(|record| matches!(record, Record::Spawn | Record::Call)).count();
    let deepest = random.pick(&[0, 1, 2, 3, 9, opened, opened.saturating_sub(1), 1_000_000]);
    options.extend(["--depth".to_string(), deepest.to_string()]);
    (options, deepest)
}

// Asks for a part of the locations at times.
fn part(random: &mut Random, options: &mut Vec<String>, kind: &'static str) -> (Question, &'static str) {
    if !random.once_in(3) {
        return (Question::Check(0, 1), kind);
    }
    let count = random.pick(&[1, 2, 2, 3, 4, 5, 7, 8, 16, 64, 65_535, 65_536]);
    let rest = random.below(count);
    options.extend(["--part".to_string(), format!("{rest}/{count}")]);
    (Question::Check(rest as u64, count as u64), "a part of a trace")
}

// Two reports for one: the true one by parts, or others.
fn two_reports(random: &mut Random, dag: &Dag) -> (Vec<u8>, Vec<u8>) {
    if random.once_in(2) {
        return (making::another_report(random, dag), making::another_report(random, dag));
    }
    let count = random.pick(&[1, 2, 3, 8]);
    let (first, second): (Vec<Race>, Vec<Race>) = dag.report().iter().partition(|race| race.location % count == 0);
    (judge::report_text(&first).into_bytes(), judge::report_text(&second).into_bytes())
}

// Mostly a location of the trace.
fn location(random: &mut Random, dag: &Dag) -> u64 {
    let locations = dag.locations();
    match locations.is_empty() || random.once_in(10) {
        true => random.pick(&[0, 1, 5, u64::MAX]),
        false => random.pick(&locations),
    }
}

// Makes another report of the true one at times, and says what it is then.
fn confirmed(random: &mut Random, dag: &Dag, report: &mut Vec<u8>) -> &'static str {
    let chosen = random.below(4);
    if chosen > 1 || chosen == 1 && random.once_in(2) {
        *report = making::another_report(random, dag);
    }
    match chosen {
        0 => "the true report",
        1 => {
            making::damage(random, report);
            "a damaged report"
        }
        _ => "another report",
    }
}

/// What the program is asked with.
struct Asker {
    program: PathBuf,
    room: PathBuf,
}

impl Asker {
    fn ask(&self, case: &Case) -> io::Result<Answer> {
        fs::write(self.room.join("trace"), &case.trace)?;
        if case.has_report() {
            fs::write(self.room.join("report"), &case.report)?;
        }
        let [out, err] = ["out", "err"].map(|name| self.room.join(name));
        let mut command = Command::new(&self.program);
        command.args(case.words()).current_dir(&self.room).stdout(File::create(&out)?).stderr(File::create(&err)?);
        let status = match case.way {
            Way::File => end_of(command.stdin(Stdio::null()).spawn()?)?,
            Way::Pipe => {
                let mut child = command.stdin(Stdio::piped()).spawn()?;
                // It needn't read to the end of a text with a fault.
                let _ = child.stdin.take().expect("a pipe").write_all(case.moved());
                end_of(child)?
            }
            Way::Pieces(_) => {
                let (mine, its) = UnixDatagram::pair()?;
                let child = command.stdin(OwnedFd::from(its)).spawn()?;
                drop(command);
                send_pieces(&mine, &case.pieces())?;
                end_of(child)?
            }
        };
        Ok(Answer { out: fs::read(out)?, err: fs::read(err)?, status })
    }
}

// Sends pieces that are read one by one, and then the end of the bytes, as often as it may be asked for.
fn send_pieces(to: &UnixDatagram, pieces: &[&[u8]]) -> io::Result<()> {
    to.set_write_timeout(Some(LIMIT))?;
    for piece in pieces.iter().copied().chain([&[][..]; 4]) {
        // It has ended, or hangs.
        if to.send(piece).is_err() {
            break;
        }
    }
    Ok(())
}

fn end_of(mut child: Child) -> io::Result<Ending> {
    let begun = Instant::now();
    while begun.elapsed() < LIMIT {
        if let Some(status) = child.try_wait()? {
            return Ok(status.code().map_or(Ending::Signal(status.signal()), Ending::Status));
        }
        thread::sleep(Duration::from_micros(50));
    }
    child.kill()?;
    child.wait()?;
    Ok(Ending::TooLate)
}

/// Makes the trace of a differing case smaller, while the program's answer differs.
struct Shrinking<'a> {
    asker: &'a Asker,
    begun: Instant,
    /// How often a case is asked until it is taken for one that doesn't differ.
    tries: usize,
    case: Case,
}

impl Shrinking<'_> {
    fn run(&mut self) -> io::Result<()> {
        let lines = |text: &[u8]| -> Vec<Vec<u8>> {
            text.split_inclusive(|byte| *byte == b'\n').map(<[u8]>::to_vec).collect()
        };
        loop {
            let length = self.case.trace.len();
            self.drop_parts(lines)?;
            self.drop_procedures(lines)?;
            if self.case.trace.len() == length {
                break;
            }
        }
        if self.case.wanted().status == Ending::Status(2) && self.case.trace.len() < 1000 {
            self.drop_parts(|text| text.iter().map(|byte| vec![*byte]).collect())?;
        }
        Ok(())
    }

    // Takes the trace where the answer differs for it too.
    fn take(&mut self, trace: Vec<u8>) -> io::Result<bool> {
        let smaller = Case { trace, ..self.case.clone() };
        let (wanted, whole) = (smaller.wanted(), self.case.wanted());
        let has_fault = |answer: &Answer| answer.status == Ending::Status(2);
        if has_fault(&wanted) != has_fault(&whole) {
            return Ok(false);
        }
        for _ in 0..self.tries {
            if self.begun.elapsed() < PATIENCE && self.asker.ask(&smaller)? != wanted {
                self.case = smaller;
                return Ok(true);
            }
        }
        Ok(false)
    }

    // Drops many parts at once, then fewer.
    fn drop_parts(&mut self, parts_of: impl Fn(&[u8]) -> Vec<Vec<u8>>) -> io::Result<()> {
        let mut many = parts_of(&self.case.trace).len().div_ceil(2);
        while many > 0 {
            let mut at = 0;
            loop {
                let mut parts = parts_of(&self.case.trace);
                if at >= parts.len() {
                    break;
                }
                parts.drain(at..parts.len().min(at + many));
                at += if self.take(parts.concat())? { 0 } else { many };
            }
            many /= 2;
        }
        Ok(())
    }

    // Drops a procedure with all that it does, or else the record that opens it and its return alone.
    fn drop_procedures(&mut self, lines_of: impl Fn(&[u8]) -> Vec<Vec<u8>>) -> io::Result<()> {
        let mut at = 0;
        loop {
            let mut lines = lines_of(&self.case.trace);
            if at >= lines.len() {
                return Ok(());
            }
            let Some(end) = end_of_procedure(&lines, at) else {
                at += 1;
                continue;
            };
            let without = [&lines[..at], &lines[end + 1..]].concat().concat();
            if self.take(without)? {
                continue;
            }
            lines.remove(end);
            lines.remove(at);
            at += if self.take(lines.concat())? { 0 } else { 1 };
        }
    }
}

// The return of the child that is opened on this line.
fn end_of_procedure(lines: &[Vec<u8>], at: usize) -> Option<usize> {
    let mut active = 0;
    for (number, line) in lines.iter().enumerate().skip(at) {
        match &line[..] {
            b"spawn\n" | b"call\n" => active += 1,
            b"return\n" => active -= 1,
            _ if number == at => return None,
            _ => (),
        }
        if active <= 0 {
            return (number > at).then_some(number);
        }
    }
    None
}

// Writes a case down: the texts, the words, what was wanted and what came.
fn keep(folder: &Path, case: &Case, asker: &Asker, came: &Answer) -> io::Result<()> {
    fs::create_dir_all(folder)?;
    fs::write(folder.join("trace"), &case.trace)?;
    let mut words = format!("{} {}", asker.program.display(), case.words().join(" "));
    if case.has_report() {
        fs::write(folder.join("report"), &case.report)?;
    }
    if case.way != Way::File {
        words += if case.moves_report { " <report" } else { " <trace" };
    }
    if let Way::Pieces(_) = case.way {
        let lengths: Vec<String> = case.pieces().iter().map(|piece| piece.len().to_string()).collect();
        words += &format!("\n# in pieces of so many bytes: {}", lengths.join(" "));
    }
    fs::write(folder.join("words"), words + "\n")?;
    for (name, answer) in [("wanted", &case.wanted()), ("came", came)] {
        fs::create_dir_all(folder.join(name))?;
        fs::write(folder.join(name).join("out"), &answer.out)?;
        fs::write(folder.join(name).join("err"), &answer.err)?;
        fs::write(folder.join(name).join("status"), format!("{:?}\n", answer.status))?;
    }
    Ok(())
}

// Writes a differing case down, and a smaller one where one is found.
fn tell_difference(asker: &Asker, folder: &Path, case: Case, came: &Answer) -> io::Result<()> {
    let _ = fs::remove_dir_all(folder);
    keep(folder, &case, asker, came)?;
    println!("another answer; the trace, the words, what was wanted and what came: {}", folder.display());
    let wanted = case.wanted();
    let mut always = true;
    for _ in 0..4 {
        always &= asker.ask(&case)? != wanted;
    }
    if !always {
        println!("it doesn't come at each run");
    }
    let tries = if always { 1 } else { 10 };
    let mut shrinking = Shrinking { asker, begun: Instant::now(), tries, case: case.clone() };
    shrinking.run()?;
    let smaller = shrinking.case;
    if smaller.trace.len() < case.trace.len() {
        let mut came = asker.ask(&smaller)?;
        for _ in 1..tries {
            if came == smaller.wanted() {
                came = asker.ask(&smaller)?;
            }
        }
        keep(&folder.join("smaller"), &smaller, asker, &came)?;
        println!(
            "made smaller, from {} bytes to {}: {}/smaller",
            case.trace.len(),
            smaller.trace.len(),
            folder.display()
        );
    }
    Ok(())
}

/// How many cases there were of each kind, and with which status.
#[derive(Default)]
struct Counts {
    kinds: BTreeMap<(&'static str, &'static str), [u64; 3]>,
    ways: [u64; 3],
}

impl Counts {
    fn add(&mut self, case: &Case, wanted: &Answer) {
        let Ending::Status(status) = wanted.status else { unreachable!("the judge ends by itself") };
        self.kinds.entry((case.command, case.about)).or_default()[status as usize] += 1;
        let way = match case.way {
            Way::File => 0,
            Way::Pipe => 1,
            Way::Pieces(_) => 2,
        };
        self.ways[way] += 1;
    }

    fn tell(&self) -> u64 {
        println!("{:<28}{:>10}{:>10}{:>10}{:>10}", "", "cases", "status 0", "status 1", "status 2");
        for ((command, about), [zero, one, two]) in &self.kinds {
            let kind = format!("{command}, {about}");
            println!("{kind:<28}{:>10}{zero:>10}{one:>10}{two:>10}", zero + one + two);
        }
        let [file, pipe, pieces] = self.ways;
        println!("{file} from files alone, {pipe} by standard input, {pieces} by standard input in pieces");
        self.ways.iter().sum()
    }
}

struct Asked {
    asker: Asker,
    examples: PathBuf,
    found: PathBuf,
    seed: u64,
    seconds: u64,
}

fn asked() -> Option<Asked> {
    let mut words = env::args().skip(1);
    let [program, examples, room, found] = [(); 4].map(|_| words.next().map(PathBuf::from));
    let asker = Asker { program: program?, room: room? };
    let now = SystemTime::now().duration_since(SystemTime::UNIX_EPOCH).expect("a time after 1970");
    let seed = now.as_micros() as u64 & 0xffff_ffff;
    let mut asked = Asked { asker, examples: examples?, found: found?, seed, seconds: 60 };
    while let Some(word) = words.next() {
        match word.as_str() {
            "--seed" => asked.seed = words.next()?.parse().ok()?,
            "--seconds" => asked.seconds = words.next()?.parse().ok()?,
            _ => return None,
        }
    }
    Some(asked)
}

// The judge tells the reports of the examples, or nothing of what it says is worth anything.
fn judge_examples(examples: &Path) -> io::Result<()> {
    for entry in fs::read_dir(examples)? {
        let name = entry?.path();
        if name.extension().is_some_and(|extension| extension == "trace") {
            let told = judge::answer(Question::Check(0, 1), USUAL_DEPTH, &fs::read(&name)?, &[]).out;
            if told != fs::read(name.with_extension("report"))? {
                return Err(io::Error::other(format!("the judge tells another report of {}", name.display())));
            }
        }
    }
    Ok(())
}

// Whether all answers were the same.
fn fuzz(asked: &Asked) -> io::Result<bool> {
    println!("seed {}", asked.seed);
    judge_examples(&asked.examples)?;
    let (begun, mut counts) = (Instant::now(), Counts::default());
    let mut number = 0;
    let mut is_same = true;
    while is_same && begun.elapsed() < Duration::from_secs(asked.seconds) {
        let case = Case::new(asked.seed, number);
        let wanted = case.wanted();
        let came = asked.asker.ask(&case)?;
        counts.add(&case, &wanted);
        if came != wanted {
            is_same = false;
            let folder = asked.found.join(format!("{}-{number}", asked.seed));
            tell_difference(&asked.asker, &folder, case, &came)?;
        }
        number += 1;
    }
    let cases = counts.tell();
    let differing = !is_same as u64;
    println!("{} passed, {differing} failed", cases - differing);
    Ok(is_same)
}

fn main() -> ExitCode {
    let Some(asked) = asked() else {
        eprintln!("checks/fuzz [--seed N] [--seconds N]");
        return ExitCode::from(2);
    };
    match fuzz(&asked) {
        Ok(is_same) => ExitCode::from(!is_same as u8),
        Err(error) => {
            eprintln!("fuzz: {error}");
            ExitCode::from(2)
        }
    }
}
