//! What is agreed on and told: calls and their entries, rules and verdicts, members, messages, events and refusals.

use crate::bytes::{Bytes, Name};
use crate::limits::{MOST_MESSAGE, MOST_NAME};
use std::sync::Arc;

#[derive(Clone, Copy, PartialEq)]
pub struct Cred {
    pub uid: u32,
    pub gid: u32,
}

#[derive(Clone, Copy, PartialEq)]
pub enum Effect {
    Allow,
    Deny,
}

#[derive(Clone, Copy, PartialEq)]
pub enum Right {
    Join,
    Send,
    List,
    Edit,
}

/// Whom a rule speaks of: each condition that is there has to hold.
#[derive(Clone, Copy, PartialEq)]
pub struct Who {
    pub uid: Option<u32>,
    pub gid: Option<u32>,
    pub node: Option<u8>,
}

#[derive(Clone, Copy, PartialEq)]
pub struct Rule {
    pub effect: Effect,
    pub right: Right,
    pub who: Who,
}

#[derive(Clone, PartialEq)]
pub struct Insertion {
    pub group: Name,
    pub position: u8,
    pub rule: Rule,
}

#[derive(Clone, PartialEq)]
pub struct Removal {
    pub group: Name,
    pub id: u32,
}

/// What an entry does. An edit of rules stands apart, so that an entry is small.
#[derive(Clone, PartialEq)]
pub enum Op {
    Join(Name),
    Leave,
    Send(Bytes),
    Insert(Box<Insertion>),
    Remove(Box<Removal>),
    Gone,
}

#[derive(Clone, PartialEq)]
pub struct Entry {
    pub node: u8,
    pub conn: u16,
    pub pid: u32,
    pub cred: Cred,
    pub op: Op,
}

#[derive(Clone, Copy, PartialEq)]
pub enum Verdict {
    AllowedRule(u32),
    AllowedDefault,
    AllowedRoot,
    AllowedFree,
    DeniedRule(u32),
    DeniedDefault,
    DeniedClosed,
    DeniedJoined,
    DeniedTwice,
    DeniedFull,
    DeniedPosition,
    DeniedTableFull,
    DeniedAbsent,
}

impl Verdict {
    pub fn is_allowed(self) -> bool {
        match self {
            Verdict::AllowedRule(_) | Verdict::AllowedDefault | Verdict::AllowedRoot | Verdict::AllowedFree => true,
            _ => false,
        }
    }
}

#[derive(Clone, Copy, PartialEq)]
pub struct Member {
    pub node: u8,
    pub conn: u16,
    pub pid: u32,
}

pub type Members = Arc<Vec<Member>>;

/// An entry, its verdict, and its group with the members after it.
#[derive(Clone, PartialEq)]
pub struct Record {
    pub entry: Entry,
    pub verdict: Verdict,
    /// The number of the group, or `NO_GROUP`.
    pub group: u32,
    pub members: Option<Members>,
}

pub const NO_GROUP: u32 = u32::MAX;

#[derive(Clone, Copy, PartialEq)]
pub enum Cause {
    Join,
    Leave,
    Down,
}

/// A change of a group's members: who came or went, and who is there after it.
pub struct Change {
    pub group: Name,
    pub members: Members,
    pub member: Member,
    pub cause: Cause,
}

pub struct Message {
    pub group: Name,
    pub node: u8,
    pub pid: u32,
    pub text: Bytes,
}

/// What a place tells a connection.
pub enum Told {
    Verdict(Verdict),
    Message(Message),
    Change(Box<Change>),
    RulesChanged(Name),
}

pub struct Event {
    pub place: u32,
    pub told: Told,
}

#[derive(Clone, Copy, PartialEq)]
pub enum Refusal {
    Access,
    NoConnection,
    BadName,
    TooLong,
    QueueFull,
    ConnectionsFull,
    Foreign,
    NotMine,
    Stale,
    Implausible,
    Held,
    FarAhead,
    Malformed,
    RingEnd,
    NoFrame,
    Denied(u32),
}

pub fn accepts_name(name: &[u8]) -> bool {
    !name.is_empty() && name.len() <= MOST_NAME && name.iter().all(|byte| *byte >= 0x21 && *byte <= 0x7e)
}

/// Why a call is refused before it is admitted, if it is.
pub fn call_refusal(op: &Op) -> Option<Refusal> {
    let name = match op {
        Op::Leave | Op::Gone => return None,
        Op::Send(message) if message.as_slice().len() > MOST_MESSAGE => return Some(Refusal::TooLong),
        Op::Send(_) => return None,
        Op::Join(group) => group.as_slice(),
        Op::Insert(insertion) => insertion.group.as_slice(),
        Op::Remove(removal) => removal.group.as_slice(),
    };
    if accepts_name(name) {
        None
    } else {
        Some(Refusal::BadName)
    }
}
