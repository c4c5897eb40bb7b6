//! A sheet and a table that agree over the supplied row of links: docs/PAIR.md and docs/LINKS.md.

use crate::frame::{read_frame, Change, Edit, Side, MOST_TEXT};

/// The most lines of the sheet.
pub const SIZE: usize = 256;

/// Column 0: the limit of the choice, on both sides.
const LABELS: u32 = 255;

/// Column 1: the two lots in turn, microseconds to milliseconds to frames, with their right limits.
/// The left limits follow.
const MICROS: i32 = 1_000;
const MILLIS_LIMIT: i32 = 1_999_999;
const MICROS_LIMIT: i32 = MICROS * (MILLIS_LIMIT + 1) - 1;
const MILLIS: i32 = 20;
const FRAMES_LIMIT: i32 = 99_999;
const _: () = assert!(MILLIS * (FRAMES_LIMIT + 1) - 1 == MILLIS_LIMIT);

/// Column 2: the flags that the table sees.
const LOW_FLAGS: u16 = 0xF;

/// Column 3: the limit of the choice that only the table sees.
const CHOICES: u32 = 15;

/// Why a frame is refused, by its number.
#[derive(Clone, Copy, PartialEq, Eq, Debug)]
pub enum Refusal {
    NotAFrame = 4,
    Position = 5,
    Full = 6,
    Remark = 7,
    Kind = 8,
    Value = 9,
    Translation = 10,
}

/// A record's four numbers in one of the documents.
#[derive(Clone, Copy, PartialEq, Eq, Debug, Default)]
pub struct Row {
    pub label: u8,
    pub time: i32,
    pub flags: u16,
    pub choice: u8,
}

/// A record: its row on the sheet, its row in the table, and the memories of column 1's links,
/// which keep the two in agreement.
#[derive(Clone, Copy, Default)]
struct Record {
    sheet: Row,
    table: Row,
    micros: i32,
    millis: i32,
}

#[derive(Clone, Copy, Default)]
struct Remark {
    len: usize,
    text: [u8; MOST_TEXT],
}

/// A line of the sheet as it is read.
pub enum Line<'a> {
    Record(&'a Row),
    Remark(&'a [u8]),
}

/// A line of the sheet as it is kept: the number of a slot, and `RECORD` too if the slot holds a
/// record and no remark.
type Handle = u16;
const RECORD: Handle = 0x8000;

/// Both documents. A list that shifts moves the handles alone; records and remarks stay in their
/// slots.
pub struct Pair {
    /// The sheet's lines, and after them, in any order, the slots that are free: each slot stands
    /// here once.
    sheet: [Handle; SIZE],
    lines: usize,
    /// The table's records.
    table: [Handle; SIZE],
    count: usize,
    records: [Record; SIZE],
    remarks: [Remark; SIZE],
}

impl Pair {
    /// A pair just opened: two empty documents.
    pub fn new() -> Pair {
        Pair {
            sheet: std::array::from_fn(|slot| slot as Handle),
            lines: 0,
            table: [0; SIZE],
            count: 0,
            records: [Record::default(); SIZE],
            remarks: [Remark::default(); SIZE],
        }
    }

    /// The sheet, line by line.
    pub fn lines(&self) -> impl ExactSizeIterator<Item = Line<'_>> {
        self.sheet[..self.lines].iter().map(|&handle| {
            if is_record(handle) {
                Line::Record(&self.records[slot(handle)].sheet)
            } else {
                let remark = &self.remarks[slot(handle)];
                Line::Remark(&remark.text[..remark.len])
            }
        })
    }

    /// The table, record by record.
    pub fn rows(&self) -> impl ExactSizeIterator<Item = &Row> {
        self.table[..self.count]
            .iter()
            .map(|&handle| &self.records[slot(handle)].table)
    }

    /// Plays bytes as a frame: it acts on its own document, and its translation on the other. A
    /// refusal changes nothing.
    pub fn play(&mut self, bytes: &[u8]) -> Result<(), Refusal> {
        let (side, edit) = read_frame(bytes).ok_or(Refusal::NotAFrame)?;
        match edit {
            Edit::Keep => {}
            Edit::Insert { at } => self.insert(side, at)?,
            Edit::Remark { at, text } => self.remark(at, text)?,
            Edit::Delete { at } => self.delete(side, at)?,
            Edit::Move { from, to } => self.move_item(side, from, to)?,
            Edit::Change { at, column, change } => self.change(side, at, column, change)?,
        }
        debug_assert!(self.agrees());
        Ok(())
    }

    fn insert(&mut self, side: Side, at: usize) -> Result<(), Refusal> {
        fits(at <= self.len(side))?;
        self.has_room()?;
        let (line, row) = match side {
            Side::Sheet => (at, self.records_before(at)),
            Side::Table => (self.place_for(at), at),
        };
        let free = slot(self.sheet[self.lines]);
        self.records[free] = Record::default();
        self.add_line(free as Handle | RECORD, line);
        self.table[self.count] = free as Handle | RECORD;
        shift(&mut self.table, self.count, row);
        self.count += 1;
        Ok(())
    }

    fn remark(&mut self, at: usize, text: &[u8]) -> Result<(), Refusal> {
        fits(at <= self.lines)?;
        self.has_room()?;
        let free = slot(self.sheet[self.lines]);
        let remark = &mut self.remarks[free];
        remark.text[..text.len()].copy_from_slice(text);
        remark.len = text.len();
        self.add_line(free as Handle, at);
        Ok(())
    }

    fn delete(&mut self, side: Side, at: usize) -> Result<(), Refusal> {
        fits(at < self.len(side))?;
        let (line, row) = match side {
            Side::Sheet => (
                at,
                is_record(self.sheet[at]).then(|| self.records_before(at)),
            ),
            Side::Table => (self.line_of(self.table[at]), Some(at)),
        };
        self.lines -= 1;
        shift(&mut self.sheet, line, self.lines);
        if let Some(row) = row {
            self.count -= 1;
            shift(&mut self.table, row, self.count);
        }
        Ok(())
    }

    fn move_item(&mut self, side: Side, from: usize, to: usize) -> Result<(), Refusal> {
        fits(from < self.len(side) && to < self.len(side))?;
        match side {
            Side::Sheet if is_record(self.sheet[from]) => {
                let row = self.records_before(from);
                shift(&mut self.sheet, from, to);
                // Those before it now are the other records before it.
                let row_to = self.records_before(to);
                shift(&mut self.table, row, row_to);
            }
            Side::Sheet => shift(&mut self.sheet, from, to),
            Side::Table if from == to => {}
            Side::Table => {
                let line = self.line_of(self.table[from]);
                // Where the line goes once it is taken out. Of the other records, number `to` is
                // one further on in the whole table if it comes after, and its line is one further
                // on in the whole sheet then.
                let line_to = if to < from {
                    self.place_for(to)
                } else {
                    self.place_for(to + 1) - 1
                };
                shift(&mut self.sheet, line, line_to);
                shift(&mut self.table, from, to);
            }
        }
        Ok(())
    }

    fn change(&mut self, side: Side, at: usize, column: u8, change: Change) -> Result<(), Refusal> {
        fits(at < self.len(side))?;
        let handle = match side {
            Side::Sheet => self.sheet[at],
            Side::Table => self.table[at],
        };
        if !is_record(handle) {
            return Err(Refusal::Remark);
        }
        let record = &mut self.records[slot(handle)];
        let Record { sheet, table, .. } = record;
        match (column, side, change) {
            (0..=3, _, Change::Keep) => {}
            (0, Side::Sheet, Change::Set(label @ 0..=LABELS)) => {
                sheet.label = label as u8;
                table.label = sheet.label.reverse_bits();
            }
            (0, Side::Table, Change::Set(label @ 0..=LABELS)) => {
                table.label = label as u8;
                sheet.label = table.label.reverse_bits();
            }
            (1, Side::Sheet, Change::Add(amount)) if is_within(amount, MICROS_LIMIT) => {
                record.add_micros(amount)?
            }
            (1, Side::Table, Change::Add(amount)) if is_within(amount, FRAMES_LIMIT) => {
                record.add_frames(amount)?
            }
            (2, Side::Sheet, Change::Flags { mask, bits }) if bits & !mask == 0 => {
                sheet.flags = sheet.flags & !mask | bits;
                let (mask, bits) = (mask & LOW_FLAGS, bits & LOW_FLAGS);
                table.flags = table.flags & !mask | bits;
            }
            (
                2,
                Side::Table,
                Change::Flags {
                    mask: mask @ 0..=LOW_FLAGS,
                    bits,
                },
            ) if bits & !mask == 0 => {
                table.flags = table.flags & !mask | bits;
                sheet.flags = sheet.flags & !mask | bits;
            }
            (3, Side::Table, Change::Set(choice @ 0..=CHOICES)) => table.choice = choice as u8,
            _ => return Err(Refusal::Kind),
        }
        Ok(())
    }

    fn len(&self, side: Side) -> usize {
        match side {
            Side::Sheet => self.lines,
            Side::Table => self.count,
        }
    }

    fn has_room(&self) -> Result<(), Refusal> {
        if self.lines < SIZE {
            Ok(())
        } else {
            Err(Refusal::Full)
        }
    }

    /// Puts a line of the first free slot into a sheet that has room.
    fn add_line(&mut self, handle: Handle, at: usize) {
        self.sheet[self.lines] = handle;
        shift(&mut self.sheet, self.lines, at);
        self.lines += 1;
    }

    /// How many of the sheet's first lines are records.
    fn records_before(&self, line: usize) -> usize {
        let records: Handle = self.sheet[..line]
            .iter()
            .map(|handle| handle / RECORD)
            .sum();
        records.into()
    }

    /// Where a record goes on the sheet that the table has at a position: directly before the line
    /// of the record that is there.
    fn place_for(&self, row: usize) -> usize {
        if row < self.count {
            self.line_of(self.table[row])
        } else {
            self.lines
        }
    }

    /// The line of a record, which is on the sheet.
    fn line_of(&self, record: Handle) -> usize {
        self.sheet
            .iter()
            .position(|&handle| handle == record)
            .expect("each record has a line")
    }

    /// Whether the documents agree: the promise's first part, with each link's relation between
    /// left and right.
    fn agrees(&self) -> bool {
        let records = self.sheet[..self.lines]
            .iter()
            .filter(|&&handle| is_record(handle));
        records.eq(&self.table[..self.count])
            && self.table[..self.count].iter().all(|&handle| {
                let Record {
                    sheet,
                    table,
                    micros,
                    millis,
                } = self.records[slot(handle)];
                table.label == sheet.label.reverse_bits()
                    && (0..=MICROS_LIMIT).contains(&sheet.time)
                    && table.time == sheet.time / (MICROS * MILLIS)
                    && micros == sheet.time % MICROS
                    && millis == sheet.time / MICROS % MILLIS
                    && table.flags == sheet.flags & LOW_FLAGS
                    && sheet.choice == 0
                    && u32::from(table.choice) <= CHOICES
            })
    }
}

impl Record {
    /// Adds microseconds on the sheet, and the frames that they come to in the table.
    fn add_micros(&mut self, amount: i32) -> Result<(), Refusal> {
        let time = add(self.sheet.time, amount, MICROS_LIMIT)?;
        let (millis_added, micros) = carry(self.micros, amount, MICROS, MILLIS_LIMIT)?;
        let (frames_added, millis) = carry(self.millis, millis_added, MILLIS, FRAMES_LIMIT)?;
        self.sheet.time = time;
        self.table.time += frames_added;
        self.micros = micros;
        self.millis = millis;
        Ok(())
    }

    /// Adds frames in the table, and as many microseconds on the sheet. The memories stay.
    fn add_frames(&mut self, amount: i32) -> Result<(), Refusal> {
        self.table.time = add(self.table.time, amount, FRAMES_LIMIT)?;
        self.sheet.time += amount * (MICROS * MILLIS);
        Ok(())
    }
}

/// The sum, if it lies in 0 to the limit.
fn add(value: i32, amount: i32, limit: i32) -> Result<i32, Refusal> {
    value
        .checked_add(amount)
        .filter(|sum| (0..=limit).contains(sum))
        .ok_or(Refusal::Value)
}

/// Carries an amount to the right, into lots of a ratio: the lots to add, rounded down, and the
/// memory of the rest.
fn carry(memory: i32, amount: i32, ratio: i32, limit: i32) -> Result<(i32, i32), Refusal> {
    let sum = memory + amount;
    let lots = sum.div_euclid(ratio);
    if is_within(lots, limit) {
        Ok((lots, sum.rem_euclid(ratio)))
    } else {
        Err(Refusal::Translation)
    }
}

/// Whether an amount lies in -limit to limit.
fn is_within(amount: i32, limit: i32) -> bool {
    (-limit..=limit).contains(&amount)
}

fn fits(position_is_there: bool) -> Result<(), Refusal> {
    if position_is_there {
        Ok(())
    } else {
        Err(Refusal::Position)
    }
}

fn is_record(handle: Handle) -> bool {
    handle & RECORD != 0
}

fn slot(handle: Handle) -> usize {
    (handle % SIZE as Handle).into()
}

/// Moves the item at one position so that it ends at the other.
fn shift(list: &mut [Handle; SIZE], from: usize, to: usize) {
    let item = list[from];
    if from < to {
        list.copy_within(from + 1..=to, from);
    } else {
        list.copy_within(to..from, to + 1);
    }
    list[to] = item;
}
