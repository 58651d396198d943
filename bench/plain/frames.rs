//! Frames, and how packets and tokens are spelled out in them.

use crate::bytes::{Bytes, INSIDE};
use crate::values::{Effect, Entry, Op, Right, Rule};
use std::sync::Arc;

/// The first two bytes of each frame, and the third of a packet and of a token.
pub const MARK: u8 = 0x43;
pub const VERSION: u8 = 2;
pub const DATA: u8 = 1;
pub const TOKEN: u8 = 2;

/// How many bytes stand inside a `Frame`.
const IN_FRAME: usize = 62;

/// The bytes of a data frame before its body.
const HEAD: usize = 27;

/// A frame as it goes over a link: short ones are copied, long ones shared.
#[derive(Clone)]
pub enum Frame {
    Short(u8, [u8; IN_FRAME]),
    Long(Arc<Vec<u8>>),
}

impl Frame {
    #[inline]
    pub fn as_slice(&self) -> &[u8] {
        match self {
            Frame::Short(length, inside) => &inside[..usize::from(*length)],
            Frame::Long(bytes) => bytes,
        }
    }

    /// The frame that was spelled, whose bytes are taken out where it is long.
    #[inline]
    fn of(spelled: &mut Vec<u8>) -> Frame {
        if spelled.len() <= IN_FRAME {
            let mut inside = [0; IN_FRAME];
            inside[..spelled.len()].copy_from_slice(spelled);
            Frame::Short(spelled.len() as u8, inside)
        } else {
            Frame::Long(Arc::new(std::mem::replace(spelled, Vec::new())))
        }
    }
}

#[derive(Clone)]
pub struct Token {
    pub ring: u32,
    pub hop: u64,
    pub seq: u32,
    pub aru: u32,
    pub aru_id: Option<u8>,
    pub rtr: Vec<u32>,
}

pub struct Packet {
    pub ring: u32,
    pub place: u32,
    pub entry: Entry,
}

pub enum Heard {
    Packet(Packet),
    Token(Token),
}

fn put_name(out: &mut Vec<u8>, name: &[u8]) {
    out.push(name.len() as u8);
    out.extend_from_slice(name);
}

fn put_condition(out: &mut Vec<u8>, kind: u8, value: Option<u32>) {
    if let Some(value) = value {
        out.push(kind);
        out.extend_from_slice(&value.to_be_bytes());
    }
}

fn put_rule(out: &mut Vec<u8>, rule: &Rule) {
    let who = rule.who;
    let count = who.uid.is_some() as u8 + who.gid.is_some() as u8 + who.node.is_some() as u8;
    let effect = if rule.effect == Effect::Allow { 1 } else { 2 };
    let right = match rule.right {
        Right::Join => 1,
        Right::Send => 2,
        Right::List => 3,
        Right::Edit => 4,
    };
    out.extend_from_slice(&[effect, right, count]);
    put_condition(out, 1, who.uid);
    put_condition(out, 2, who.gid);
    put_condition(out, 3, who.node.map(u32::from));
}

fn op_number(op: &Op) -> u8 {
    match op {
        Op::Join(_) => 1,
        Op::Leave => 2,
        Op::Send(_) => 3,
        Op::Insert(_) => 4,
        Op::Remove(_) => 5,
        Op::Gone => 6,
    }
}

fn put_body(out: &mut Vec<u8>, op: &Op) {
    match op {
        Op::Join(group) => put_name(out, group.as_slice()),
        Op::Leave | Op::Gone => {}
        Op::Send(message) => {
            let message = message.as_slice();
            out.reserve_exact(2 + message.len());
            out.extend_from_slice(&(message.len() as u16).to_be_bytes());
            out.extend_from_slice(message);
        }
        Op::Insert(insertion) => {
            put_name(out, insertion.group.as_slice());
            out.push(insertion.position);
            put_rule(out, &insertion.rule);
        }
        Op::Remove(removal) => {
            put_name(out, removal.group.as_slice());
            out.extend_from_slice(&removal.id.to_be_bytes());
        }
    }
}

/// Spells a data frame into the scratch, which is empty or holds what is no longer needed.
pub fn spell_packet(scratch: &mut Vec<u8>, ring: u32, place: u32, entry: &Entry) -> Frame {
    let mut head = [0; HEAD];
    head[..3].copy_from_slice(&[MARK, VERSION, DATA]);
    head[3..7].copy_from_slice(&ring.to_be_bytes());
    head[7..11].copy_from_slice(&place.to_be_bytes());
    head[11] = entry.node;
    head[12..14].copy_from_slice(&entry.conn.to_be_bytes());
    head[14..18].copy_from_slice(&entry.pid.to_be_bytes());
    head[18..22].copy_from_slice(&entry.cred.uid.to_be_bytes());
    head[22..26].copy_from_slice(&entry.cred.gid.to_be_bytes());
    head[26] = op_number(&entry.op);
    scratch.clear();
    if let Op::Send(message) = &entry.op {
        scratch.reserve_exact(HEAD + 2 + message.as_slice().len());
    }
    scratch.extend_from_slice(&head);
    put_body(scratch, &entry.op);
    Frame::of(scratch)
}

pub fn spell_token(scratch: &mut Vec<u8>, token: &Token) -> Frame {
    let mut head = [0; 25];
    head[..3].copy_from_slice(&[MARK, VERSION, TOKEN]);
    head[3..7].copy_from_slice(&token.ring.to_be_bytes());
    head[7..15].copy_from_slice(&token.hop.to_be_bytes());
    head[15..19].copy_from_slice(&token.seq.to_be_bytes());
    head[19..23].copy_from_slice(&token.aru.to_be_bytes());
    head[23] = token.aru_id.unwrap_or(0);
    head[24] = token.rtr.len() as u8;
    scratch.clear();
    scratch.extend_from_slice(&head);
    for place in &token.rtr {
        scratch.extend_from_slice(&place.to_be_bytes());
    }
    Frame::of(scratch)
}

/// The message of a send shares the bytes of its long frame, so that the sender's own copy is let go.
pub fn share_message(entry: &mut Entry, frame: &Frame) {
    if let (Op::Send(message), Frame::Long(text)) = (&mut entry.op, frame) {
        let length = message.as_slice().len();
        if length > INSIDE {
            *message = Bytes::Long { text: text.clone(), start: (HEAD + 2) as u16, length: length as u32 };
        }
    }
}
