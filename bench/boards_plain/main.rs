//! What the proved program `boards` does, in plain Rust: the measure of its speed.
//!
//! Each line of standard input is a call on the berth board or the ship board, and gets one line of answer.

#[path = "../plain/index.rs"]
mod index;
#[path = "../plain/lines.rs"]
mod lines;

use index::{Berth, Fault, Key, Name, Operation, Progress, SESSIONS};
use lines::{Field, Fields, LONGEST_NAME, Refusal, answer_lines, put_number};
use std::io::{self, Write};

const BUCKETS: usize = 16;
const PLACES: usize = 64;

type Board<K, V> = index::Board<K, V, BUCKETS, PLACES>;

/// The index points at no field.
impl From<Fault> for Refusal {
    fn from(fault: Fault) -> Refusal {
        Refusal { number: fault as u8, field: 0, byte: 0 }
    }
}

fn operation(field: Field) -> Result<Operation, Refusal> {
    Ok(match field.bytes {
        b"find" => Operation::Find,
        b"insert" => Operation::Insert,
        b"write" => Operation::Write,
        b"replace" => Operation::Replace,
        b"remove" => Operation::Remove,
        b"point" => Operation::Point,
        _ => return field.refuse(3),
    })
}

fn berth_key(fields: &mut Fields) -> Result<Berth, Refusal> {
    let harbour = fields.next()?.number(65535)? as u16;
    let berth = fields.next()?.number(65535)? as u16;
    Ok(Berth { harbour, berth })
}

fn sailing(fields: &mut Fields) -> Result<(u32, u16), Refusal> {
    let ship = fields.next()?.number(4294967295)? as u32;
    let minute = fields.next()?.number(1439)? as u16;
    Ok((ship, minute))
}

fn name_key(fields: &mut Fields) -> Result<Name, Refusal> {
    let name = fields.next()?.name()?;
    let mut bytes = [0; LONGEST_NAME];
    bytes[..name.len()].copy_from_slice(name);
    Ok(Name { bytes, len: name.len() as u8 })
}

fn berth_number(fields: &mut Fields) -> Result<u16, Refusal> {
    Ok(fields.next()?.number(65535)? as u16)
}

fn turned(progress: Progress) -> &'static [u8] {
    match progress {
        Progress::Moved => b"ok,moved\n",
        Progress::Again => b"ok,again\n",
        Progress::Held => b"ok,held\n",
        Progress::Claimed => b"ok,claimed\n",
        Progress::Ended => b"ok,ended\n",
    }
}

/// The verb and what follows it, on either board.
fn serve<K: Key, V: Copy>(
    board: &mut Board<K, V>,
    fields: &mut Fields,
    out: &mut Vec<u8>,
    key: fn(&mut Fields) -> Result<K, Refusal>,
    value: fn(&mut Fields) -> Result<V, Refusal>,
    put: fn(&mut Vec<u8>, V),
) -> Result<(), Refusal> {
    let verb = fields.next()?;
    let word = verb.bytes;
    if !matches!(word, b"begin" | b"turn" | b"collect" | b"abandon") {
        return verb.refuse(3);
    }
    let session = fields.next()?.number(255)? as usize;
    if word == b"begin" {
        let operation = operation(fields.next()?)?;
        let key = key(fields)?;
        let value = value(fields)?;
        fields.end()?;
        if session >= SESSIONS {
            return Err(Fault::NoSession.into());
        }
        board.begin(session, operation, key, value)?;
        out.extend_from_slice(b"ok,begin\n");
        return Ok(());
    }
    fields.end()?;
    if session >= SESSIONS {
        return Err(Fault::NoSession.into());
    }
    match word[0] {
        b't' => out.extend_from_slice(turned(board.turn(session)?)),
        b'c' => match board.collect(session)? {
            None => out.extend_from_slice(b"ok,absent\n"),
            Some(value) => {
                out.extend_from_slice(b"ok,present,");
                put(out, value);
                out.push(b'\n');
            }
        },
        _ => {
            board.abandon(session)?;
            out.extend_from_slice(b"ok,abandon\n");
        }
    }
    Ok(())
}

struct Boards {
    berths: Board<Berth, (u32, u16)>,
    ships: Board<Name, u16>,
}

impl Boards {
    fn serve(&mut self, line: &[u8], out: &mut Vec<u8>) -> Result<(), Refusal> {
        let mut fields = Fields::of(line)?;
        let letter = fields.next()?;
        match letter.bytes {
            b"B" => serve(&mut self.berths, &mut fields, out, berth_key, sailing, |out, (ship, minute)| {
                put_number(out, ship.into());
                out.push(b',');
                put_number(out, minute.into());
            }),
            b"S" => serve(&mut self.ships, &mut fields, out, name_key, berth_number, |out, berth| {
                put_number(out, berth.into());
            }),
            _ => letter.refuse(3),
        }
    }

    fn answer(&mut self, line: &[u8], out: &mut Vec<u8>) {
        if let Err(refusal) = self.serve(line, out) {
            out.extend_from_slice(b"no,");
            put_number(out, refusal.number.into());
            out.push(b',');
            put_number(out, refusal.field as u64);
            out.push(b',');
            put_number(out, refusal.byte as u64);
            out.push(b'\n');
        }
    }
}

fn main() -> io::Result<()> {
    let mut boards = Boards {
        berths: Board::new(Berth { harbour: 0, berth: 0 }, (0, 0)),
        ships: Board::new(Name { bytes: [0; LONGEST_NAME], len: 0 }, 0),
    };
    let rest = answer_lines(|line, out| boards.answer(line, out))?;
    io::stdout().write_all(&rest)
}
