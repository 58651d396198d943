//! How values are printed: entries, verdicts, events, refusals and frames.

use crate::frames::{Frame, Heard};
use crate::reading::read_frame;
use crate::script::run_before;
use crate::values::{Cause, Effect, Entry, Event, Member, Op, Refusal, Right, Rule, Told, Verdict, Who};

fn put_number(out: &mut Vec<u8>, mut number: u64) {
    let mut digits = [0; 20];
    let mut at = digits.len();
    loop {
        at -= 1;
        digits[at] = b'0' + (number % 10) as u8;
        number /= 10;
        if number == 0 {
            break;
        }
    }
    out.extend_from_slice(&digits[at..]);
}

pub fn put_u32(out: &mut Vec<u8>, number: u32) {
    put_number(out, u64::from(number));
}

pub fn put(out: &mut Vec<u8>, text: &str) {
    out.extend_from_slice(text.as_bytes());
}

/// Puts text, and a number after it.
pub fn put_with(out: &mut Vec<u8>, text: &str, number: u64) {
    put(out, text);
    put_number(out, number);
}

fn is_escaped(byte: u8) -> bool {
    byte < 0x21 || byte > 0x7e || byte == b'%'
}

fn put_text(out: &mut Vec<u8>, message: &[u8]) {
    if message.is_empty() {
        return put(out, "-");
    }
    if message == b"-" {
        return put(out, "%2D");
    }
    let mut rest = message;
    while !rest.is_empty() {
        let (run, after) = rest.split_at(run_before(rest, is_escaped));
        out.extend_from_slice(run);
        rest = after;
        while let Some((byte, after)) = rest.split_first() {
            if !is_escaped(*byte) {
                break;
            }
            let digits = b"0123456789ABCDEF";
            out.extend_from_slice(&[b'%', digits[usize::from(byte / 16)], digits[usize::from(byte % 16)]]);
            rest = after;
        }
    }
}

fn put_who(out: &mut Vec<u8>, who: &Who) {
    let conditions = [("uid:", who.uid), ("gid:", who.gid), ("node:", who.node.map(u32::from))];
    let mut first = true;
    for (name, value) in &conditions {
        if let Some(value) = value {
            put(out, if first { "" } else { "+" });
            put_with(out, name, u64::from(*value));
            first = false;
        }
    }
    if first {
        put(out, "any");
    }
}

pub fn put_rule_words(out: &mut Vec<u8>, rule: &Rule) {
    put(out, if rule.effect == Effect::Allow { "allow " } else { "deny " });
    put(
        out,
        match rule.right {
            Right::Join => "join ",
            Right::Send => "send ",
            Right::List => "list ",
            Right::Edit => "edit ",
        },
    );
    put_who(out, &rule.who);
}

fn put_op(out: &mut Vec<u8>, op: &Op) {
    match op {
        Op::Join(group) => {
            put(out, "join ");
            out.extend_from_slice(group.as_slice());
        }
        Op::Leave => put(out, "leave"),
        Op::Send(message) => {
            put(out, "send ");
            put_text(out, message.as_slice());
        }
        Op::Insert(insertion) => {
            put(out, "insert ");
            out.extend_from_slice(insertion.group.as_slice());
            put_with(out, " ", u64::from(insertion.position));
            put(out, " ");
            put_rule_words(out, &insertion.rule);
        }
        Op::Remove(removal) => {
            put(out, "remove ");
            out.extend_from_slice(removal.group.as_slice());
            put_with(out, " ", u64::from(removal.id));
        }
        Op::Gone => put(out, "gone"),
    }
}

pub fn put_conn(out: &mut Vec<u8>, node: u8, conn: u16) {
    put_u32(out, u32::from(node));
    put_with(out, ".", u64::from(conn));
}

/// Puts the place, the connection, its process and what it does.
pub fn put_entry(out: &mut Vec<u8>, place: u32, entry: &Entry) {
    put_u32(out, place);
    put(out, " ");
    put_conn(out, entry.node, entry.conn);
    put_with(out, " ", u64::from(entry.pid));
    put_with(out, " ", u64::from(entry.cred.uid));
    put_with(out, " ", u64::from(entry.cred.gid));
    put(out, " ");
    put_op(out, &entry.op);
}

fn put_verdict(out: &mut Vec<u8>, verdict: Verdict) {
    match verdict {
        Verdict::AllowedRule(id) => put_with(out, "allowed rule ", u64::from(id)),
        Verdict::AllowedDefault => put(out, "allowed default"),
        Verdict::AllowedRoot => put(out, "allowed root"),
        Verdict::AllowedFree => put(out, "allowed free"),
        Verdict::DeniedRule(id) => put_with(out, "denied rule ", u64::from(id)),
        Verdict::DeniedDefault => put(out, "denied default"),
        Verdict::DeniedClosed => put(out, "denied closed"),
        Verdict::DeniedJoined => put(out, "denied joined"),
        Verdict::DeniedTwice => put(out, "denied twice"),
        Verdict::DeniedFull => put(out, "denied full"),
        Verdict::DeniedPosition => put(out, "denied position"),
        Verdict::DeniedTableFull => put(out, "denied tablefull"),
        Verdict::DeniedAbsent => put(out, "denied absent"),
    }
}

fn put_process(out: &mut Vec<u8>, member: &Member) {
    put_u32(out, u32::from(member.node));
    put_with(out, "/", u64::from(member.pid));
}

pub fn put_members(out: &mut Vec<u8>, members: &[Member]) {
    if members.is_empty() {
        put(out, "-");
    }
    for (index, member) in members.iter().enumerate() {
        if index > 0 {
            out.push(b',');
        }
        put_process(out, member);
    }
}

/// Puts the end of an audit line: the verdict, and the group with its members, whose text is given.
pub fn put_outcome(out: &mut Vec<u8>, verdict: Verdict, group: Option<(&[u8], &[u8])>) {
    put(out, " -> ");
    put_verdict(out, verdict);
    if let Some((name, members)) = group {
        put(out, " group ");
        out.extend_from_slice(name);
        put(out, " members ");
        out.extend_from_slice(members);
    }
    out.push(b'\n');
}

pub fn put_verdict_event(out: &mut Vec<u8>, place: u32, verdict: Verdict) {
    put_with(out, "event ", u64::from(place));
    put(out, " verdict ");
    put_verdict(out, verdict);
    out.push(b'\n');
}

pub fn put_message_event(out: &mut Vec<u8>, place: u32, group: &[u8], node: u8, pid: u32, text: &[u8]) {
    put_with(out, "event ", u64::from(place));
    put(out, " message ");
    out.extend_from_slice(group);
    put_with(out, " ", u64::from(node));
    put_with(out, " ", u64::from(pid));
    put(out, " ");
    put_text(out, text);
    out.push(b'\n');
}

pub fn put_change_event(out: &mut Vec<u8>, place: u32, group: &[u8], members: &[u8], member: &Member, cause: Cause) {
    put_with(out, "event ", u64::from(place));
    put(out, " change ");
    out.extend_from_slice(group);
    put(out, " members ");
    out.extend_from_slice(members);
    put(out, if cause == Cause::Join { " left - joined " } else { " left " });
    put_process(out, member);
    put(
        out,
        match cause {
            Cause::Join => ":join\n",
            Cause::Leave => ":leave joined -\n",
            Cause::Down => ":down joined -\n",
        },
    );
}

pub fn put_rules_event(out: &mut Vec<u8>, place: u32, group: &[u8]) {
    put_with(out, "event ", u64::from(place));
    put(out, " rules ");
    out.extend_from_slice(group);
    out.push(b'\n');
}

pub fn put_event(out: &mut Vec<u8>, event: &Event) {
    let place = event.place;
    match &event.told {
        Told::Verdict(verdict) => put_verdict_event(out, place, *verdict),
        Told::Message(message) => {
            let (group, text) = (message.group.as_slice(), message.text.as_slice());
            put_message_event(out, place, group, message.node, message.pid, text);
        }
        Told::Change(change) => {
            let mut members = Vec::new();
            put_members(&mut members, &change.members);
            put_change_event(out, place, change.group.as_slice(), &members, &change.member, change.cause);
        }
        Told::RulesChanged(group) => put_rules_event(out, place, group.as_slice()),
    }
}

pub fn put_refusal(out: &mut Vec<u8>, refusal: Refusal) {
    put(out, "refused ");
    match refusal {
        Refusal::Access => put(out, "2 Access"),
        Refusal::NoConnection => put(out, "3 NoConnection"),
        Refusal::BadName => put(out, "4 BadName"),
        Refusal::TooLong => put(out, "5 TooLong"),
        Refusal::QueueFull => put(out, "6 QueueFull"),
        Refusal::ConnectionsFull => put(out, "7 ConnectionsFull"),
        Refusal::Foreign => put(out, "8 Foreign"),
        Refusal::NotMine => put(out, "9 NotMine"),
        Refusal::Stale => put(out, "10 Stale"),
        Refusal::Implausible => put(out, "11 Implausible"),
        Refusal::Held => put(out, "12 Held"),
        Refusal::FarAhead => put(out, "13 FarAhead"),
        Refusal::Malformed => put(out, "14 Malformed"),
        Refusal::RingEnd => put(out, "15 RingEnd"),
        Refusal::NoFrame => put(out, "16 NoFrame"),
        Refusal::Denied(id) => put_with(out, "21 Denied rule ", u64::from(id)),
    }
    out.push(b'\n');
}

fn put_places(out: &mut Vec<u8>, places: &[u32]) {
    if places.is_empty() {
        put(out, "-");
    }
    for (index, place) in places.iter().enumerate() {
        if index > 0 {
            out.push(b',');
        }
        put_u32(out, *place);
    }
}

pub fn put_frame(out: &mut Vec<u8>, frame: &Frame) {
    match read_frame(frame) {
        None => put_refusal(out, Refusal::Malformed),
        Some(Heard::Packet(packet)) => {
            put(out, "data ");
            put_entry(out, packet.place, &packet.entry);
            out.push(b'\n');
        }
        Some(Heard::Token(token)) => {
            put_with(out, "token hop ", token.hop);
            put_with(out, " seq ", u64::from(token.seq));
            put_with(out, " aru ", u64::from(token.aru));
            match token.aru_id {
                None => put(out, " id none rtr "),
                Some(node) => {
                    put_with(out, " id ", u64::from(node));
                    put(out, " rtr ");
                }
            }
            put_places(out, &token.rtr);
            out.push(b'\n');
        }
    }
}

/// Puts a line of that text and number.
pub fn put_line(out: &mut Vec<u8>, text: &str, number: u64) {
    put_with(out, text, number);
    out.push(b'\n');
}
