//! The index in plain Rust, for the programs that the proved ones are timed beside.
//!
//! It keeps the same tables: items with a state, a key, a value, a next and a mark; a key and a value for each
//! session; and sessions with a cursor, a set-aside place and a claim.

// no program uses all of it
#![allow(dead_code)]

use std::cmp::Ordering;
use std::error::Error;
use std::fmt;
use std::ops::Range;

pub const SESSIONS: usize = 16;
pub const LONGEST_NAME: usize = 12;
const NONE: u32 = u32::MAX;

/// Why a call is refused; its number is the variant's.
#[derive(Clone, Copy, Debug, PartialEq)]
pub enum Fault {
    NoSession = 10,
    NotIdle = 11,
    NoPlace = 12,
    Idle = 13,
    Ended = 14,
    UnderWay = 15,
}

impl fmt::Display for Fault {
    fn fmt(&self, f: &mut fmt::Formatter) -> fmt::Result {
        write!(f, "refused {}", *self as u8)
    }
}

impl Error for Fault {}

/// What a turn says.
#[derive(Clone, Copy, PartialEq)]
pub enum Progress {
    Moved,
    Again,
    Held,
    Claimed,
    Ended,
}

#[derive(Clone, Copy, PartialEq)]
pub enum Operation {
    Find,
    Insert,
    Write,
    Replace,
    Remove,
    Point,
}

use Operation::{Find, Insert, Point, Remove, Replace, Write};

#[derive(Clone, Copy, PartialEq)]
enum State {
    Out,
    Aside,
    InRing,
}

#[derive(Clone, Copy, PartialEq)]
enum Stage {
    Idle,
    UnderWay,
    Present,
    Absent,
}

#[derive(Clone, Copy)]
struct Item<K, V> {
    state: State,
    key: K,
    value: V,
    next: u32,
    occupied: bool,
}

#[derive(Clone, Copy)]
struct Request<K, V> {
    key: K,
    value: V,
}

#[derive(Clone, Copy)]
struct Session {
    stage: Stage,
    operation: Operation,
    cursor: Option<u32>,
    aside: u32,
    claim: Option<u32>,
    finds: u8,
}

pub trait Key: Copy + Ord {
    fn hash(&self) -> u16;
}

#[derive(Clone, Copy, PartialEq, Eq, PartialOrd, Ord)]
pub struct Berth {
    pub harbour: u16,
    pub berth: u16,
}

impl Key for Berth {
    fn hash(&self) -> u16 {
        self.berth.wrapping_mul(40503).wrapping_add(self.harbour)
    }
}

#[derive(Clone, Copy)]
pub struct Name {
    pub bytes: [u8; LONGEST_NAME],
    pub len: u8,
}

impl Name {
    fn used(&self) -> &[u8] {
        &self.bytes[..self.len as usize]
    }
}

impl Key for Name {
    fn hash(&self) -> u16 {
        self.used().iter().fold(0u16, |h, &b| h.wrapping_mul(31).wrapping_add(b.into()))
    }
}

impl PartialEq for Name {
    fn eq(&self, other: &Name) -> bool {
        self.used() == other.used()
    }
}

impl Eq for Name {}

impl PartialOrd for Name {
    fn partial_cmp(&self, other: &Name) -> Option<Ordering> {
        Some(self.cmp(other))
    }
}

impl Ord for Name {
    fn cmp(&self, other: &Name) -> Ordering {
        self.used().cmp(other.used())
    }
}

/// An index with its tables. The number of buckets is a power of two, up to 65536.
pub struct Board<K, V, const BUCKETS: usize, const PLACES: usize> {
    heads: [u32; BUCKETS],
    items: [Item<K, V>; PLACES],
    requests: [Request<K, V>; SESSIONS],
    sessions: [Session; SESSIONS],
    hand: u32,
}

impl<K: Key, V: Copy, const BUCKETS: usize, const PLACES: usize> Board<K, V, BUCKETS, PLACES> {
    /// A hash has its bucket in its upper bits and its tag in the others.
    const TAG_BITS: u32 = 16 - BUCKETS.trailing_zeros();

    fn bucket(key: &K) -> usize {
        (u32::from(key.hash()) >> Self::TAG_BITS) as usize
    }

    fn tag(key: &K) -> u32 {
        u32::from(key.hash()) & ((1 << Self::TAG_BITS) - 1)
    }

    pub fn new(key: K, value: V) -> Self {
        let item = Item { state: State::Out, key, value, next: 0, occupied: false };
        let session =
            Session { stage: Stage::Idle, operation: Find, cursor: None, aside: NONE, claim: None, finds: 0 };
        Board {
            heads: [NONE; BUCKETS],
            items: [item; PLACES],
            requests: [Request { key, value }; SESSIONS],
            sessions: [session; SESSIONS],
            hand: PLACES as u32 - 1,
        }
    }

    fn item(&mut self, place: u32) -> &mut Item<K, V> {
        &mut self.items[place as usize]
    }

    fn is_stood_on(&self, place: u32) -> bool {
        self.sessions.iter().any(|s| s.stage == Stage::UnderWay && s.cursor == Some(place))
    }

    /// The first place after the hand that is out and that no session stands on.
    fn free_place(&self) -> Option<u32> {
        let after = self.hand + 1;
        self.free_among(after..PLACES as u32).or_else(|| self.free_among(0..after))
    }

    fn free_among(&self, mut places: Range<u32>) -> Option<u32> {
        places.find(|&place| self.items[place as usize].state == State::Out && !self.is_stood_on(place))
    }

    pub fn begin(&mut self, at: usize, operation: Operation, key: K, value: V) -> Result<(), Fault> {
        if self.sessions[at].stage != Stage::Idle {
            return Err(Fault::NotIdle);
        }
        let mut aside = NONE;
        if operation == Insert || operation == Replace {
            match self.free_place() {
                None => return Err(Fault::NoPlace),
                Some(place) => aside = place,
            }
            let occupied = self.item(aside).occupied;
            *self.item(aside) = Item { state: State::Aside, key, value, next: aside, occupied };
            self.hand = aside;
        }
        self.requests[at] = Request { key, value };
        let session = &mut self.sessions[at];
        session.stage = Stage::UnderWay;
        session.operation = operation;
        session.cursor = None;
        session.aside = aside;
        session.claim = None;
        Ok(())
    }

    fn again(&mut self, at: usize) -> Progress {
        self.sessions[at].cursor = None;
        self.sessions[at].claim = None;
        Progress::Again
    }

    /// The operation ends; a set-aside item that is not in ring by now goes out.
    fn end(&mut self, at: usize, answer: Option<V>) -> Progress {
        let session = &mut self.sessions[at];
        match answer {
            None => session.stage = Stage::Absent,
            Some(value) => {
                session.stage = Stage::Present;
                self.requests[at].value = value;
            }
        }
        if session.operation == Find {
            session.finds = if session.finds == 4 { 0 } else { session.finds + 1 };
        }
        let aside = session.aside;
        if aside != NONE && self.item(aside).state == State::Aside {
            self.item(aside).state = State::Out;
        }
        Progress::Ended
    }

    fn swing(&mut self, at: usize, c: u32, p: u32) -> Progress {
        let Session { operation, aside, .. } = self.sessions[at];
        let stood = self.item(c);
        if stood.state != State::InRing || stood.next != p || (stood.occupied && c != p) {
            self.item(p).occupied = false;
            return self.again(at);
        }
        let Item { next, value, .. } = *self.item(p);
        let alone = next == p;
        let next = if operation == Replace { aside } else { next };
        self.item(c).next = next;
        let head = &mut self.heads[Self::bucket(&self.requests[at].key)];
        if *head == p {
            *head = if operation == Remove && alone { NONE } else { next };
        }
        self.item(p).occupied = false;
        self.item(p).state = State::Out;
        if operation == Replace {
            self.item(aside).state = State::InRing;
        }
        self.end(at, Some(value))
    }

    // inlined, so that a loop of turns is compiled as one
    #[inline]
    pub fn turn(&mut self, at: usize) -> Result<Progress, Fault> {
        let session = self.sessions[at];
        match session.stage {
            Stage::Idle => return Err(Fault::Idle),
            Stage::Present | Stage::Absent => return Err(Fault::Ended),
            Stage::UnderWay => {}
        }
        let Session { operation, aside, .. } = session;
        let key = &self.requests[at].key;
        let Some(c) = session.cursor else {
            let bucket = Self::bucket(key);
            let head = self.heads[bucket];
            if head != NONE {
                self.sessions[at].cursor = Some(head);
                return Ok(Progress::Moved);
            }
            if operation == Insert {
                self.item(aside).next = aside;
                self.heads[bucket] = aside;
                self.item(aside).state = State::InRing;
            }
            return Ok(self.end(at, None));
        };
        if let Some(p) = session.claim {
            return Ok(self.swing(at, c, p));
        }
        let stood = &self.items[c as usize];
        if stood.state != State::InRing {
            return Ok(self.again(at));
        }
        let m = stood.next;
        let next = &self.items[m as usize];
        match operation {
            Find | Write | Point if stood.key == *key => {
                let found = stood.value;
                if operation == Point || (operation == Find && session.finds == 4) {
                    self.heads[Self::bucket(key)] = c;
                }
                if operation == Write {
                    self.items[c as usize].value = self.requests[at].value;
                }
                return Ok(self.end(at, Some(found)));
            }
            Insert if next.key == *key => return Ok(self.end(at, Some(next.value))),
            Replace | Remove if next.key == *key => {
                if next.occupied {
                    return Ok(Progress::Held);
                }
                let ahead = next.next;
                self.item(m).occupied = true;
                if operation == Replace {
                    self.item(aside).next = if ahead == m { aside } else { ahead };
                }
                self.sessions[at].claim = Some(m);
                return Ok(Progress::Claimed);
            }
            _ => {}
        }
        let low = (Self::tag(&stood.key), &stood.key);
        let sought = (Self::tag(key), key);
        let high = (Self::tag(&next.key), &next.key);
        let above = low < sought;
        let below = sought < high;
        if if above == below { above } else { high <= low } {
            if operation == Insert {
                if stood.occupied {
                    return Ok(Progress::Held);
                }
                self.item(aside).next = m;
                self.item(c).next = aside;
                self.item(aside).state = State::InRing;
            }
            return Ok(self.end(at, None));
        }
        self.sessions[at].cursor = Some(m);
        Ok(Progress::Moved)
    }

    pub fn collect(&mut self, at: usize) -> Result<Option<V>, Fault> {
        let answer = match self.sessions[at].stage {
            Stage::Idle => return Err(Fault::Idle),
            Stage::UnderWay => return Err(Fault::UnderWay),
            Stage::Present => Some(self.requests[at].value),
            Stage::Absent => None,
        };
        self.sessions[at].stage = Stage::Idle;
        Ok(answer)
    }

    pub fn abandon(&mut self, at: usize) -> Result<(), Fault> {
        let Session { stage, aside, claim, .. } = self.sessions[at];
        if stage == Stage::Idle {
            return Err(Fault::Idle);
        }
        if stage == Stage::UnderWay {
            if let Some(p) = claim {
                self.item(p).occupied = false;
            }
            if aside != NONE {
                self.item(aside).state = State::Out;
            }
        }
        self.sessions[at].stage = Stage::Idle;
        Ok(())
    }
}
