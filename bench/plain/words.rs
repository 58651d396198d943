//! What the words of a script say: numbers, messages, rules and calls.

use crate::bytes::{Bytes, Name, INSIDE};
use crate::limits::{MOST_CONNECTIONS, MOST_NODES};
use crate::script::run_before;
use crate::values::{Effect, Insertion, Op, Removal, Right, Rule, Who};

#[inline]
pub fn read_number(low: u64, high: u64, word: &[u8]) -> Option<u64> {
    let mut number = 0u64;
    for byte in word {
        if !byte.is_ascii_digit() {
            return None;
        }
        number = number.checked_mul(10)?.checked_add(u64::from(byte - b'0'))?;
    }
    if word.is_empty() || number < low || number > high {
        None
    } else {
        Some(number)
    }
}

#[inline]
pub fn read_u32(word: &[u8]) -> Option<u32> {
    read_number(0, u64::from(u32::MAX), word).map(|number| number as u32)
}

pub fn read_node(nodes: u8, word: &[u8]) -> Option<u8> {
    read_number(1, u64::from(nodes), word).map(|number| number as u8)
}

pub fn read_conn(word: &[u8]) -> Option<u16> {
    read_number(1, MOST_CONNECTIONS as u64, word).map(|number| number as u16)
}

fn digit_of(byte: u8) -> Option<u8> {
    char::from(byte).to_digit(16).map(|digit| digit as u8)
}

/// The message that a word spells; nothing in place of a long one that is not kept.
fn read_text(word: &[u8], keeps: bool) -> Option<Bytes> {
    if word == b"-" {
        return Some(Bytes::copy_of(&[]));
    }
    if !word.contains(&b'%') {
        return Some(Bytes::copy_of(if keeps || word.len() <= INSIDE { word } else { &[] }));
    }
    let mut message = Vec::with_capacity(word.len());
    let mut rest = word;
    while !rest.is_empty() {
        if rest[0] == b'%' {
            if rest.len() < 3 {
                return None;
            }
            message.push(digit_of(rest[1])? * 16 + digit_of(rest[2])?);
            rest = &rest[3..];
        } else {
            let (run, after) = rest.split_at(run_before(rest, |byte| byte == b'%'));
            message.extend_from_slice(run);
            rest = after;
        }
    }
    Some(Bytes::copy_of(&message))
}

/// The number of a condition of that name at the front of those that are left, which it is taken from.
fn take_condition<'a>(name: &[u8], low: u64, high: u64, left: &mut Option<&'a [u8]>) -> Option<u64> {
    let conditions = (*left)?;
    let end = conditions.iter().position(|byte| *byte == b'+');
    let first = &conditions[..end.unwrap_or(conditions.len())];
    let number = read_number(low, high, first.strip_prefix(name)?)?;
    *left = end.map(|end| &conditions[end + 1..]);
    Some(number)
}

fn read_who(word: &[u8]) -> Option<Who> {
    if word == b"any" {
        return Some(Who { uid: None, gid: None, node: None });
    }
    let most = u64::from(u32::MAX);
    let mut left = Some(word);
    let uid = take_condition(b"uid:", 0, most, &mut left).map(|number| number as u32);
    let gid = take_condition(b"gid:", 0, most, &mut left).map(|number| number as u32);
    let node = take_condition(b"node:", 1, u64::from(MOST_NODES), &mut left).map(|number| number as u8);
    match left {
        None => Some(Who { uid, gid, node }),
        Some(_) => None,
    }
}

fn read_rule(effect: &[u8], right: &[u8], who: &[u8]) -> Option<Rule> {
    let effect = match effect {
        b"allow" => Effect::Allow,
        b"deny" => Effect::Deny,
        _ => return None,
    };
    let right = match right {
        b"join" => Right::Join,
        b"send" => Right::Send,
        b"list" => Right::List,
        b"edit" => Right::Edit,
        _ => return None,
    };
    Some(Rule { effect, right, who: read_who(who)? })
}

/// The call that words say. A long message is left out where it is not kept.
pub fn read_call(words: &[&[u8]], keeps: bool) -> Option<Op> {
    match words {
        [b"join", group] => Some(Op::Join(Name::copy_of(group))),
        [b"leave"] => Some(Op::Leave),
        [b"send", text] => Some(Op::Send(read_text(text, keeps)?)),
        [b"insert", group, position, effect, right, who] => {
            let group = Name::copy_of(group);
            let position = read_number(0, 255, position)? as u8;
            let rule = read_rule(effect, right, who)?;
            Some(Op::Insert(Box::new(Insertion { group, position, rule })))
        }
        [b"remove", group, id] => {
            let group = Name::copy_of(group);
            Some(Op::Remove(Box::new(Removal { group, id: read_u32(id)? })))
        }
        _ => None,
    }
}
