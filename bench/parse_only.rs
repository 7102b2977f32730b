//! Parses the lines of a trace and does nothing with them: what reading alone costs.
//!
//!     parse_only FILE
mod text;

use std::env;
use std::fs::File;
use std::process::ExitCode;
use text::{Fault, Record, Records};

fn count(name: &str) -> Result<String, Fault> {
    let mut records = Records::new(File::open(name)?)?;
    let (mut counts, mut locations) = ([0u64; 6], 0u64);
    while let Some(record) = records.next()? {
        let (kind, location) = match record {
            Record::Spawn => (0, 0),
            Record::Return => (1, 0),
            Record::Sync => (2, 0),
            Record::Read(location) => (3, location),
            Record::Write(location) => (4, location),
            Record::Call => (5, 0),
        };
        counts[kind] += 1;
        // So that no compiler leaves the numbers unread.
        locations ^= location;
    }
    let [spawns, returns, syncs, reads, writes, calls] = counts;
    let structure = format!("{spawns} spawns, {calls} calls, {returns} returns, {syncs} syncs");
    Ok(format!("{structure}, {reads} reads, {writes} writes, {locations:x}"))
}

fn main() -> ExitCode {
    let Some(name) = env::args().nth(1) else {
        eprintln!("parse_only FILE");
        return ExitCode::from(2);
    };
    match count(&name) {
        Ok(counts) => {
            println!("{counts}");
            ExitCode::SUCCESS
        }
        Err(Fault::Line { number, what }) => {
            eprintln!("parse_only: line {number}: {what}");
            ExitCode::from(2)
        }
        Err(Fault::Device(error)) => {
            eprintln!("parse_only: {error}");
            ExitCode::from(2)
        }
    }
}
