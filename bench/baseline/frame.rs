//! A line's characters as bytes, and bytes as a frame: docs/FORMAT.md.

/// The most bytes that a line of 80 characters spells.
pub const MOST_BYTES: usize = 40;

/// The most bytes of a remark's text.
pub const MOST_TEXT: usize = 24;

#[derive(Clone, Copy, PartialEq, Eq, Debug)]
pub enum Side {
    Sheet,
    Table,
}

/// A change of one value, in its plain form: what means keep is `Keep`.
#[derive(Clone, Copy, PartialEq, Eq, Debug)]
pub enum Change {
    Keep,
    Add(i32),
    Set(u32),
    Flags { mask: u16, bits: u16 },
}

/// What a frame asks of its side's document. It need not fit.
#[derive(Clone, Copy, PartialEq, Eq, Debug)]
pub enum Edit<'a> {
    Keep,
    Insert {
        at: usize,
    },
    Remark {
        at: usize,
        text: &'a [u8],
    },
    Delete {
        at: usize,
    },
    Move {
        from: usize,
        to: usize,
    },
    Change {
        at: usize,
        column: u8,
        change: Change,
    },
}

/// The value of each of the sixteen digits, and `NO_DIGIT` for every other character.
const DIGITS: [u8; 256] = {
    let mut digits = [NO_DIGIT; 256];
    let mut value = 0;
    while value < 16 {
        digits[b"0123456789ABCDEF"[value] as usize] = value as u8;
        value += 1;
    }
    digits
};
const NO_DIGIT: u8 = 0xF0;

/// The bytes that a line of at most 80 characters spells, put at the front of `bytes`; nothing if
/// it is not pairs of digits.
pub fn read_digits<'a>(line: &[u8], bytes: &'a mut [u8; MOST_BYTES]) -> Option<&'a [u8]> {
    if line.len() % 2 == 1 {
        return None;
    }
    // All characters are looked up before one test says whether each was a digit: a digit has no
    // bit of NO_DIGIT.
    let mut seen = 0;
    for (byte, pair) in bytes.iter_mut().zip(line.chunks_exact(2)) {
        let (high, low) = (DIGITS[pair[0] as usize], DIGITS[pair[1] as usize]);
        seen |= high | low;
        *byte = high << 4 | low;
    }
    (seen & NO_DIGIT == 0).then_some(&bytes[..line.len() / 2])
}

/// The side and the edit that bytes say, or nothing if they are not a frame.
pub fn read_frame(bytes: &[u8]) -> Option<(Side, Edit<'_>)> {
    let &[side, letter, ref rest @ ..] = bytes else {
        return None;
    };
    let side = match side {
        b'L' => Side::Sheet,
        b'R' => Side::Table,
        _ => return None,
    };
    let edit = match (letter, rest) {
        (b'K', []) => Edit::Keep,
        (b'I', &[a, b]) => Edit::Insert { at: position(a, b) },
        (b'N', &[a, b, ref text @ ..]) if side == Side::Sheet && is_text(text) => Edit::Remark {
            at: position(a, b),
            text,
        },
        (b'D', &[a, b]) => Edit::Delete { at: position(a, b) },
        (b'M', &[a, b, c, d]) => Edit::Move {
            from: position(a, b),
            to: position(c, d),
        },
        (b'C', &[a, b, column, letter, ref operand @ ..]) => Edit::Change {
            at: position(a, b),
            column,
            change: read_change(letter, operand.try_into().ok()?)?,
        },
        _ => return None,
    };
    Some((side, edit))
}

fn position(high: u8, low: u8) -> usize {
    u16::from_be_bytes([high, low]).into()
}

fn is_text(text: &[u8]) -> bool {
    text.len() <= MOST_TEXT && text.iter().all(|byte| (0x20..=0x7E).contains(byte))
}

fn read_change(letter: u8, operand: [u8; 4]) -> Option<Change> {
    let number = u32::from_be_bytes(operand);
    match letter {
        // To add 0, and an empty mask without bits, is to keep.
        b'K' | b'A' | b'F' if number == 0 => Some(Change::Keep),
        b'A' => Some(Change::Add(number.cast_signed())),
        b'S' => Some(Change::Set(number)),
        b'F' => Some(Change::Flags {
            mask: (number >> 16) as u16,
            bits: number as u16,
        }),
        _ => None,
    }
}
