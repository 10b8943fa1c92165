//! Lines and their fields in plain Rust, for the programs that the proved ones are timed beside.

use std::io::{self, BufRead, Write};

pub const LONGEST_LINE: usize = 80;
pub const LONGEST_NAME: usize = 12;
const MOST_DIGITS: usize = 10;
const FLUSH_AT: usize = 1 << 16;

/// A refusal: its number, and the field and the byte that it points at.
pub struct Refusal {
    pub number: u8,
    pub field: usize,
    pub byte: usize,
}

/// A field of a line, with its number from 1 and its first byte from 0.
pub struct Field<'a> {
    pub bytes: &'a [u8],
    number: usize,
    start: usize,
}

impl<'a> Field<'a> {
    pub fn refuse<T>(&self, number: u8) -> Result<T, Refusal> {
        Err(Refusal { number, field: self.number, byte: self.start })
    }

    pub fn number(&self, limit: u64) -> Result<u64, Refusal> {
        let mut value = 0u64;
        for &b in self.bytes {
            let digit = b.wrapping_sub(b'0');
            if digit > 9 {
                return self.refuse(3);
            }
            value = value.wrapping_mul(10).wrapping_add(digit.into());
        }
        if self.bytes.len() > MOST_DIGITS || value > limit { self.refuse(4) } else { Ok(value) }
    }

    pub fn name(&self) -> Result<&'a [u8], Refusal> {
        if self.bytes.len() > LONGEST_NAME { self.refuse(5) } else { Ok(self.bytes) }
    }
}

/// What is left of a line; `rest` is none once its last field has been taken.
pub struct Fields<'a> {
    rest: Option<&'a [u8]>,
    taken: usize,
    at: usize,
}

impl<'a> Fields<'a> {
    /// The fields of a line that has as many bytes as a line may have.
    pub fn of(line: &'a [u8]) -> Result<Self, Refusal> {
        if line.is_empty() || line.len() > LONGEST_LINE {
            return Err(Refusal { number: 1, field: 0, byte: 0 });
        }
        Ok(Fields { rest: Some(line), taken: 0, at: 0 })
    }

    pub fn next(&mut self) -> Result<Field<'a>, Refusal> {
        let number = self.taken + 1;
        let Some(rest) = self.rest else {
            return Err(Refusal { number: 2, field: number, byte: self.at });
        };
        let end = rest.iter().position(|&b| b == b',').unwrap_or(rest.len());
        let field = Field { bytes: &rest[..end], number, start: self.at };
        if end == 0 {
            return field.refuse(2);
        }
        self.taken = number;
        self.rest = rest.get(end + 1..);
        self.at += if self.rest.is_some() { end + 1 } else { end };
        Ok(field)
    }

    pub fn end(&self) -> Result<(), Refusal> {
        match self.rest {
            None => Ok(()),
            Some(_) => Err(Refusal { number: 6, field: self.taken + 1, byte: self.at }),
        }
    }
}

pub fn put_number(out: &mut Vec<u8>, mut n: u64) {
    let mut digits = [0; 20];
    let mut at = digits.len();
    loop {
        at -= 1;
        digits[at] = b'0' + (n % 10) as u8;
        n /= 10;
        if n == 0 {
            break;
        }
    }
    out.extend_from_slice(&digits[at..]);
}

/// Adds bytes to a line, up to one more than a line may have.
fn keep(line: &mut Vec<u8>, bytes: &[u8]) {
    let room = LONGEST_LINE + 1 - line.len();
    line.extend_from_slice(&bytes[..bytes.len().min(room)]);
}

/// Answers each line of standard input, and writes the answers whenever they are worth a write. What is left of them at
/// the end is handed back.
pub fn answer_lines(mut answer: impl FnMut(&[u8], &mut Vec<u8>)) -> io::Result<Vec<u8>> {
    let mut input = io::BufReader::with_capacity(FLUSH_AT, io::stdin().lock());
    let mut output = io::stdout().lock();
    let mut out = Vec::with_capacity(2 * FLUSH_AT);
    // the beginning of a line whose end has not been read yet; more than the longest line is never needed
    let mut begun: Vec<u8> = Vec::with_capacity(LONGEST_LINE + 1);
    loop {
        let chunk = input.fill_buf()?;
        if chunk.is_empty() {
            break;
        }
        let size = chunk.len();
        let mut rest = chunk;
        while let Some(end) = rest.iter().position(|&b| b == b'\n') {
            if begun.is_empty() {
                answer(&rest[..end], &mut out);
            } else {
                keep(&mut begun, &rest[..end]);
                answer(&begun, &mut out);
                begun.clear();
            }
            rest = &rest[end + 1..];
            if out.len() >= FLUSH_AT {
                output.write_all(&out)?;
                out.clear();
            }
        }
        keep(&mut begun, rest);
        input.consume(size);
    }
    if !begun.is_empty() {
        answer(&begun, &mut out);
    }
    Ok(out)
}
