//! Plays a log of bench edits from standard input to a pair of documents, and prints the day's
//! report to standard output. Plain Rust, to compare the proved program with: it was written apart
//! from that, from docs/ alone.
//!
//! The report has a line `! LINE NUMBER` for each refusal when it comes; after the log `LEFT n` and
//! the n lines of the sheet, `RIGHT c` and the c records of the table, and `END accepted refused`.
//! A record is its four numbers with single spaces, a remark `# ` and its text.
#![forbid(unsafe_code)]

mod frame;
mod pair;

use frame::{read_digits, MOST_BYTES};
use pair::{Line, Pair, Row};
use std::io::{self, ErrorKind, Read, Write};
use std::process::ExitCode;

const MOST_LINES: u32 = 1_000_000;
const MOST_CHARACTERS: usize = 80;

/// Refusals of lines, by their numbers.
const LINE_NUMBER: u8 = 1;
const LINE_LENGTH: u8 = 2;
const LINE_DIGITS: u8 = 3;

/// The bytes of each of the two buffers.
const BUFFER: usize = 64 * 1024;

fn main() -> ExitCode {
    match run() {
        Ok(()) => ExitCode::SUCCESS,
        Err(error) => {
            eprintln!("baseline: {error}");
            ExitCode::FAILURE
        }
    }
}

fn run() -> io::Result<()> {
    let mut day = Day::new(io::stdout().lock());
    day.read(io::stdin().lock())?;
    day.end()
}

/// A day: the pair, what was counted, and the report.
struct Day<W> {
    pair: Pair,
    /// The lines so far.
    lines: u32,
    accepted: u32,
    refused: u32,
    report: Report<W>,
}

impl<W: Write> Day<W> {
    fn new(output: W) -> Day<W> {
        Day {
            pair: Pair::new(),
            lines: 0,
            accepted: 0,
            refused: 0,
            report: Report::new(output),
        }
    }

    /// Reads a log and plays its lines. They are played from the buffer; only a line that the
    /// buffer's end cuts is kept for the next read, and of one that is too long only that it is.
    fn read(&mut self, mut input: impl Read) -> io::Result<()> {
        let mut buffer = [0; BUFFER];
        let mut kept = 0;
        let mut too_long = false;
        loop {
            let end = match input.read(&mut buffer[kept..]) {
                Ok(0) => break,
                Ok(read) => kept + read,
                Err(error) if error.kind() == ErrorKind::Interrupted => continue,
                Err(error) => return Err(error),
            };
            let mut start = 0;
            while start < end {
                // A byte after the last line that may be there begins one line too many, and no
                // more is read.
                if self.lines == MOST_LINES {
                    self.lines += 1;
                    return self.refuse(LINE_NUMBER);
                }
                let Some(length) = find_newline(&buffer[start..end]) else {
                    break;
                };
                self.play(&buffer[start..start + length], too_long)?;
                too_long = false;
                start += length + 1;
            }
            kept = end - start;
            too_long |= kept > MOST_CHARACTERS;
            if too_long {
                kept = 0;
            } else {
                buffer.copy_within(start..end, 0);
            }
        }
        if kept > 0 || too_long {
            self.play(&buffer[..kept], too_long)?;
        }
        Ok(())
    }

    /// Plays one line, or what was kept of one that is too long.
    fn play(&mut self, line: &[u8], too_long: bool) -> io::Result<()> {
        self.lines += 1;
        if too_long || line.len() > MOST_CHARACTERS {
            return self.refuse(LINE_LENGTH);
        }
        if line.first().is_none_or(|&first| first == b';') {
            return Ok(());
        }
        let mut bytes = [0; MOST_BYTES];
        let Some(bytes) = read_digits(line, &mut bytes) else {
            return self.refuse(LINE_DIGITS);
        };
        match self.pair.play(bytes) {
            Ok(()) => self.accepted += 1,
            Err(refusal) => self.refuse(refusal as u8)?,
        }
        Ok(())
    }

    /// Counts and reports that the line just counted is refused.
    fn refuse(&mut self, number: u8) -> io::Result<()> {
        self.refused += 1;
        self.report
            .text(b"! ")
            .number(self.lines)
            .text(b" ")
            .number(number)
            .end_line()
    }

    /// Reports both documents and the counts.
    fn end(self) -> io::Result<()> {
        let Day {
            pair,
            accepted,
            refused,
            mut report,
            ..
        } = self;
        report
            .text(b"LEFT ")
            .number(pair.lines().len() as u32)
            .end_line()?;
        for line in pair.lines() {
            match line {
                Line::Record(row) => report.row(row).end_line()?,
                Line::Remark(text) => report.text(b"# ").text(text).end_line()?,
            }
        }
        report
            .text(b"RIGHT ")
            .number(pair.rows().len() as u32)
            .end_line()?;
        for row in pair.rows() {
            report.row(row).end_line()?;
        }
        report
            .text(b"END ")
            .number(accepted)
            .text(b" ")
            .number(refused)
            .end_line()?;
        report.flush()
    }
}

/// An output with a buffer that is written between lines only.
struct Report<W> {
    buffer: Vec<u8>,
    output: W,
}

impl<W: Write> Report<W> {
    /// Room for any line: the longest is a record's, of four numbers.
    const MOST_LINE: usize = 64;

    fn new(output: W) -> Report<W> {
        Report {
            buffer: Vec::with_capacity(BUFFER),
            output,
        }
    }

    fn text(&mut self, text: &[u8]) -> &mut Self {
        self.buffer.extend_from_slice(text);
        self
    }

    fn number(&mut self, number: impl Into<u32>) -> &mut Self {
        let mut rest = number.into();
        let mut digits = [0; 10];
        let mut first = digits.len();
        loop {
            first -= 1;
            digits[first] = b'0' + (rest % 10) as u8;
            rest /= 10;
            if rest == 0 {
                return self.text(&digits[first..]);
            }
        }
    }

    fn row(&mut self, row: &Row) -> &mut Self {
        self.number(row.label)
            .text(b" ")
            .number(row.time.cast_unsigned())
            .text(b" ");
        self.number(row.flags).text(b" ").number(row.choice)
    }

    fn end_line(&mut self) -> io::Result<()> {
        self.buffer.push(b'\n');
        if self.buffer.len() > BUFFER - Self::MOST_LINE {
            self.write()
        } else {
            Ok(())
        }
    }

    fn write(&mut self) -> io::Result<()> {
        self.output.write_all(&self.buffer)?;
        self.buffer.clear();
        Ok(())
    }

    fn flush(&mut self) -> io::Result<()> {
        self.write()?;
        self.output.flush()
    }
}

/// The position of the first byte 0A. Eight bytes are tried at once: of those that are 0 after the
/// exclusive or, the lowest has the lowest mark.
fn find_newline(bytes: &[u8]) -> Option<usize> {
    const ONES: u64 = 0x0101_0101_0101_0101;
    const MARKS: u64 = ONES << 7;
    let (words, rest) = bytes.as_chunks::<8>();
    for (index, word) in words.iter().enumerate() {
        let word = u64::from_le_bytes(*word) ^ (ONES * b'\n' as u64);
        let marks = word.wrapping_sub(ONES) & !word & MARKS;
        if marks != 0 {
            return Some(index * 8 + marks.trailing_zeros() as usize / 8);
        }
    }
    rest.iter()
        .position(|&byte| byte == b'\n')
        .map(|at| words.len() * 8 + at)
}
