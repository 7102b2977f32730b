//! Reads the text of a trace: the part that `by_hand` and `parse_only` share.
use std::io::{self, Read};

/// What a line of a trace says.
#[derive(Clone, Copy)]
pub enum Record {
    Spawn,
    Call,
    Return,
    Sync,
    Read(u64),
    Write(u64),
}

/// Why a text is no trace, or can't be read.
pub enum Fault {
    Line { number: u64, what: &'static str },
    Device(io::Error),
}

impl From<io::Error> for Fault {
    fn from(error: io::Error) -> Fault {
        Fault::Device(error)
    }
}

/// The headers of version 1 and of version 2, which has calls.
const HEADERS: [&[u8]; 2] = [b"trace 1\n", b"trace 2\n"];
/// The longest line, `write 18446744073709551615`, with its line end.
const LONGEST: usize = 27;
/// Zeros behind the bytes that were read, so that three words can be loaded at any byte of a line.
const BEHIND: usize = 40;
const SIZE: usize = 1 << 18;

/// The records of a text, one after another.
pub struct Records<R> {
    from: R,
    bytes: Vec<u8>,
    next: usize,
    end: usize,
    has_ended: bool,
    line: u64,
    has_calls: bool,
}

impl<R: Read> Records<R> {
    /// Reads the header.
    pub fn new(from: R) -> Result<Records<R>, Fault> {
        let bytes = vec![0; SIZE + BEHIND];
        let mut records = Records { from, bytes, next: 0, end: 0, has_ended: false, line: 1, has_calls: false };
        records.fill()?;
        let Some(version) = HEADERS.iter().position(|it| records.bytes[..records.end].starts_with(it)) else {
            return Err(records.faulty());
        };
        records.next = HEADERS[version].len();
        records.line = 2;
        records.has_calls = version == 1;
        Ok(records)
    }

    /// The next record, or `None` if the bytes have ended.
    #[inline]
    pub fn next(&mut self) -> Result<Option<Record>, Fault> {
        if self.end - self.next < LONGEST && !self.has_ended {
            self.fill()?;
        }
        if self.next == self.end {
            return Ok(None);
        }
        match record_at(&self.bytes[self.next..self.next + BEHIND], self.has_calls) {
            Some((record, length)) if length <= self.end - self.next => {
                self.next += length;
                self.line += 1;
                Ok(Some(record))
            }
            _ => Err(self.faulty()),
        }
    }

    // Moves the bytes that are left to the front, and reads until a whole line is there or the bytes end.
    #[cold]
    fn fill(&mut self) -> Result<(), Fault> {
        self.bytes.copy_within(self.next..self.end, 0);
        self.end -= self.next;
        self.next = 0;
        while self.end < LONGEST && !self.has_ended {
            let taken = self.from.read(&mut self.bytes[self.end..SIZE])?;
            self.end += taken;
            self.has_ended = taken == 0;
        }
        self.bytes[self.end..self.end + BEHIND].fill(0);
        Ok(())
    }

    // The fault of the line that begins at the next byte, which is no record.
    #[cold]
    fn faulty(&self) -> Fault {
        let rest = &self.bytes[self.next..self.end];
        let judged = &rest[..rest.len().min(LONGEST)];
        let what = match self.line {
            _ if judged.len() < LONGEST && !judged.contains(&b'\n') => "truncated",
            1 => "header",
            _ => "bad line",
        };
        Fault::Line { number: self.line, what }
    }
}

// The record of the line at the front of the bytes, and the length of that line.
#[inline]
fn record_at(bytes: &[u8], has_calls: bool) -> Option<(Record, usize)> {
    match bytes[0] {
        b'r' if bytes.starts_with(b"read ") => with_number(bytes, 5, Record::Read),
        b'w' if bytes.starts_with(b"write ") => with_number(bytes, 6, Record::Write),
        b's' if bytes.starts_with(b"spawn\n") => Some((Record::Spawn, 6)),
        b's' if bytes.starts_with(b"sync\n") => Some((Record::Sync, 5)),
        b'r' if bytes.starts_with(b"return\n") => Some((Record::Return, 7)),
        b'c' if has_calls && bytes.starts_with(b"call\n") => Some((Record::Call, 5)),
        _ => None,
    }
}

#[inline]
fn with_number(bytes: &[u8], from: usize, of: fn(u64) -> Record) -> Option<(Record, usize)> {
    let (number, digits) = number_at(&bytes[from..])?;
    let is_spelled_well = digits > 0 && !(digits > 1 && bytes[from] == b'0');
    let end = from + digits;
    (is_spelled_well && bytes[end] == b'\n').then(|| (of(number), end + 1))
}

const TENS: [u64; 9] = [1, 10, 100, 1_000, 10_000, 100_000, 1_000_000, 10_000_000, 100_000_000];

// The number that the digits at the front spell, and how many they are: eight at a time.
#[inline]
fn number_at(bytes: &[u8]) -> Option<(u64, usize)> {
    let (high, first) = digits_at(bytes);
    if first < 8 {
        return Some((high, first));
    }
    let (middle, second) = digits_at(&bytes[8..]);
    let number = high * TENS[second] + middle;
    if second < 8 {
        return Some((number, 8 + second));
    }
    let (low, third) = digits_at(&bytes[16..]);
    let number = number.checked_mul(TENS[third])?.checked_add(low)?;
    Some((number, 16 + third))
}

// The number that at most eight digits at the front spell, and how many they are. The eight bytes are one word: what is
// no digit is found in all of them at once, and neighbours are added up in pairs, then fours, then eights.
#[inline]
fn digits_at(bytes: &[u8]) -> (u64, usize) {
    const EACH: u64 = 0x0101_0101_0101_0101;
    let word = u64::from_le_bytes(bytes[..8].try_into().expect("eight bytes"));
    let digits = word ^ (EACH * b'0' as u64);
    let others = (digits.wrapping_add(EACH * (0x7f - 9)) | digits) & (EACH * 0x80);
    let count = (others.trailing_zeros() / 8) as usize;
    if count == 0 {
        return (0, 0);
    }
    let ones = digits << (64 - 8 * count);
    let twos = (ones * 10 + (ones >> 8)) & 0x00ff_00ff_00ff_00ff;
    let fours = (twos * 100 + (twos >> 16)) & 0x0000_ffff_0000_ffff;
    let eights = (fours * 10_000 + (fours >> 32)) & 0xffff_ffff;
    (eights, count)
}
