//! What a frame says, as it is read.

use crate::bytes::{Bytes, Name, INSIDE};
use crate::frames::{Frame, Heard, Packet, Token, DATA, MARK, TOKEN, VERSION};
use crate::limits::{MOST_HOPS, MOST_MESSAGE, MOST_NODES, MOST_PLACES, MOST_REQUESTS};
use crate::values::{accepts_name, Cred, Effect, Entry, Insertion, Op, Removal, Right, Rule, Who};

/// What is left to read of a frame.
struct Reading<'a> {
    frame: &'a Frame,
    rest: &'a [u8],
}

impl<'a> Reading<'a> {
    fn bytes(&mut self, count: usize) -> Option<&'a [u8]> {
        if self.rest.len() < count {
            return None;
        }
        let (front, rest) = self.rest.split_at(count);
        self.rest = rest;
        Some(front)
    }

    fn one(&mut self) -> Option<u8> {
        Some(self.bytes(1)?[0])
    }

    fn two(&mut self) -> Option<u16> {
        let bytes = self.bytes(2)?;
        Some(u16::from_be_bytes([bytes[0], bytes[1]]))
    }

    fn four(&mut self) -> Option<u32> {
        let bytes = self.bytes(4)?;
        Some(u32::from_be_bytes([bytes[0], bytes[1], bytes[2], bytes[3]]))
    }

    fn eight(&mut self) -> Option<u64> {
        let high = self.four()?;
        let low = self.four()?;
        Some(u64::from(high) << 32 | u64::from(low))
    }

    fn name(&mut self) -> Option<Name> {
        let length = usize::from(self.one()?);
        let name = self.bytes(length)?;
        if accepts_name(name) {
            Some(Name::copy_of(name))
        } else {
            None
        }
    }

    fn message(&mut self) -> Option<Bytes> {
        let length = usize::from(self.two()?);
        let start = self.frame.as_slice().len() - self.rest.len();
        let message = self.bytes(length)?;
        if length > MOST_MESSAGE {
            return None;
        }
        match self.frame {
            Frame::Long(text) if length > INSIDE => {
                Some(Bytes::Long { text: text.clone(), start: start as u16, length: length as u32 })
            }
            _ => Some(Bytes::copy_of(message)),
        }
    }

    fn who(&mut self) -> Option<Who> {
        let mut who = Who { uid: None, gid: None, node: None };
        let mut before = 0;
        for _ in 0..self.one()? {
            let kind = self.one()?;
            let value = self.four()?;
            if kind <= before {
                return None;
            }
            match kind {
                1 => who.uid = Some(value),
                2 => who.gid = Some(value),
                3 if value >= 1 && value <= u32::from(MOST_NODES) => who.node = Some(value as u8),
                _ => return None,
            }
            before = kind;
        }
        Some(who)
    }

    fn rule(&mut self) -> Option<Rule> {
        let effect = match self.one()? {
            1 => Effect::Allow,
            2 => Effect::Deny,
            _ => return None,
        };
        let right = match self.one()? {
            1 => Right::Join,
            2 => Right::Send,
            3 => Right::List,
            4 => Right::Edit,
            _ => return None,
        };
        Some(Rule { effect, right, who: self.who()? })
    }

    fn op(&mut self) -> Option<Op> {
        match self.one()? {
            1 => Some(Op::Join(self.name()?)),
            2 => Some(Op::Leave),
            3 => Some(Op::Send(self.message()?)),
            4 => {
                let group = self.name()?;
                let position = self.one()?;
                let rule = self.rule()?;
                Some(Op::Insert(Box::new(Insertion { group, position, rule })))
            }
            5 => {
                let group = self.name()?;
                Some(Op::Remove(Box::new(Removal { group, id: self.four()? })))
            }
            6 => Some(Op::Gone),
            _ => None,
        }
    }

    fn packet(&mut self, ring: u32) -> Option<Packet> {
        let place = self.four()?;
        let node = self.one()?;
        let conn = self.two()?;
        let pid = self.four()?;
        let cred = Cred { uid: self.four()?, gid: self.four()? };
        let op = self.op()?;
        let fits = place >= 1 && place <= MOST_PLACES && node >= 1 && node <= MOST_NODES && conn >= 1;
        if fits {
            Some(Packet { ring, place, entry: Entry { node, conn, pid, cred, op } })
        } else {
            None
        }
    }

    fn requests(&mut self, seq: u32) -> Option<Vec<u32>> {
        let count = usize::from(self.one()?);
        if count > MOST_REQUESTS {
            return None;
        }
        let mut places = Vec::with_capacity(count);
        for _ in 0..count {
            let place = self.four()?;
            if place <= places.last().cloned().unwrap_or(0) || place > seq {
                return None;
            }
            places.push(place);
        }
        Some(places)
    }

    fn token(&mut self, ring: u32) -> Option<Token> {
        let hop = self.eight()?;
        let seq = self.four()?;
        let aru = self.four()?;
        let by = self.one()?;
        let rtr = self.requests(seq)?;
        if hop > MOST_HOPS || seq > MOST_PLACES || aru > seq || by > MOST_NODES {
            return None;
        }
        let aru_id = if by == 0 { None } else { Some(by) };
        Some(Token { ring, hop, seq, aru, aru_id, rtr })
    }
}

/// What a frame says, if it is one of version 2.
pub fn read_frame(frame: &Frame) -> Option<Heard> {
    let mut reading = Reading { frame, rest: frame.as_slice() };
    if reading.one()? != MARK || reading.one()? != VERSION {
        return None;
    }
    let kind = reading.one()?;
    let ring = reading.four()?;
    let heard = match kind {
        DATA => Heard::Packet(reading.packet(ring)?),
        TOKEN => Heard::Token(reading.token(ring)?),
        _ => return None,
    };
    if reading.rest.is_empty() {
        Some(heard)
    } else {
        None
    }
}
