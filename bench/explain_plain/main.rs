//! What the proved program `explain` does, in plain Rust: the measure of its speed.
//!
//! For each line of standard input it prints what the line asks for, or why it is refused, and at the end a count.

#[path = "../plain/lines.rs"]
mod lines;

use lines::{Fields, Refusal, answer_lines, put_number};
use std::io::{self, Write};

const TAG_BITS: u32 = 12;

const OPERATIONS: [&str; 6] = ["find", "insert", "write", "replace", "remove", "point"];

fn reason(refusal: &Refusal) -> &'static str {
    match refusal.number {
        1 => "a line has no bytes, or more than 80",
        2 => "a wanted field is missing or empty",
        3 => "a word is none of those allowed, or a number holds a byte other than 0 to 9",
        4 => "a number has more than 10 digits, or is above its limit",
        5 => "a name has more than 12 bytes",
        _ => "a field follows the last one wanted",
    }
}

enum Key<'a> {
    Berth { harbour: u64, berth: u64, ship: u64, minute: u64 },
    Name { name: &'a [u8], berth: u64 },
}

enum Call<'a> {
    Begin(&'static str, Key<'a>),
    Other(&'static str),
}

struct Message<'a> {
    board: &'static str,
    session: u64,
    call: Call<'a>,
}

fn parse(line: &[u8]) -> Result<Message<'_>, Refusal> {
    let mut fields = Fields::of(line)?;
    let letter = fields.next()?;
    let berths = match letter.bytes {
        b"B" => true,
        b"S" => false,
        _ => return letter.refuse(3),
    };
    let verb = fields.next()?;
    let other = match verb.bytes {
        b"begin" => None,
        b"turn" => Some(" takes a turn"),
        b"collect" => Some(" collects"),
        b"abandon" => Some(" abandons"),
        _ => return verb.refuse(3),
    };
    let session = fields.next()?.number(255)?;
    let call = match other {
        Some(text) => Call::Other(text),
        None => {
            let word = fields.next()?;
            let Some(operation) = OPERATIONS.iter().find(|o| o.as_bytes() == word.bytes) else {
                return word.refuse(3);
            };
            let key = if berths {
                Key::Berth {
                    harbour: fields.next()?.number(65535)?,
                    berth: fields.next()?.number(65535)?,
                    ship: fields.next()?.number(4294967295)?,
                    minute: fields.next()?.number(1439)?,
                }
            } else {
                Key::Name {
                    name: fields.next()?.name()?,
                    berth: fields.next()?.number(65535)?,
                }
            };
            Call::Begin(operation, key)
        }
    };
    fields.end()?;
    let board = if berths { "berth board" } else { "ship board" };
    Ok(Message { board, session, call })
}

/// The output, kept until it is worth a write.
struct Out<'a> {
    bytes: &'a mut Vec<u8>,
}

impl Out<'_> {
    fn text(&mut self, text: &str) {
        self.bytes.extend_from_slice(text.as_bytes());
    }

    fn number(&mut self, n: u64) {
        put_number(self.bytes, n);
    }

    fn labelled(&mut self, label: &str, n: u64) {
        self.text(label);
        self.number(n);
    }

    fn name(&mut self, name: &[u8]) {
        const HEX: &[u8; 16] = b"0123456789abcdef";
        for &b in name {
            if matches!(b, b' '..=b'~') && b != b'\\' {
                self.bytes.push(b);
            } else {
                self.text("\\x");
                self.bytes.extend_from_slice(&[HEX[usize::from(b >> 4)], HEX[usize::from(b & 15)]]);
            }
        }
    }

    fn key(&mut self, key: &Key) {
        let hash = match key {
            Key::Berth { harbour, berth, ship, minute } => {
                self.labelled("harbour ", *harbour);
                self.labelled(", berth ", *berth);
                self.labelled(", ship ", *ship);
                self.labelled(", minute ", *minute);
                (40503 * berth + harbour) as u16
            }
            Key::Name { name, berth } => {
                self.text("name ");
                self.name(name);
                self.labelled(", berth ", *berth);
                name.iter().fold(0u16, |h, &b| h.wrapping_mul(31).wrapping_add(b.into()))
            }
        };
        self.labelled("; hash ", hash.into());
        self.labelled(", bucket ", (hash >> TAG_BITS).into());
        self.labelled(", tag ", (hash & ((1 << TAG_BITS) - 1)).into());
    }

    fn message(&mut self, message: &Message) {
        self.text(message.board);
        self.labelled(": session ", message.session);
        match &message.call {
            Call::Begin(operation, key) => {
                self.text(" begins ");
                self.text(operation);
                self.text(": ");
                self.key(key);
            }
            Call::Other(text) => self.text(text),
        }
    }

    fn refusal(&mut self, refusal: &Refusal) {
        self.labelled("no,", refusal.number.into());
        self.labelled(",", refusal.field as u64);
        self.labelled(",", refusal.byte as u64);
        self.text(": ");
        self.text(reason(refusal));
    }
}

#[derive(Default)]
struct Count {
    accepted: u64,
    refused: u64,
}

fn explain(line: &[u8], bytes: &mut Vec<u8>, count: &mut Count) {
    let mut out = Out { bytes };
    match parse(line) {
        Ok(message) => {
            out.message(&message);
            count.accepted += 1;
        }
        Err(refusal) => {
            out.refusal(&refusal);
            count.refused += 1;
        }
    }
    out.bytes.push(b'\n');
}

fn main() -> io::Result<()> {
    let mut count = Count::default();
    let mut rest = answer_lines(|line, bytes| explain(line, bytes, &mut count))?;
    let mut out = Out { bytes: &mut rest };
    out.number(count.accepted + count.refused);
    out.labelled(" lines: ", count.accepted);
    out.labelled(" accepted, ", count.refused);
    out.text(" refused\n");
    io::stdout().write_all(&rest)
}
