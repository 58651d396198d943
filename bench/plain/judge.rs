//! The command `judge`: a script of agreed entries.

use crate::limits::{MOST_NODES, MOST_PLACES};
use crate::output::Output;
use crate::policy::{Judged, Policy};
use crate::print::{
    put, put_change_event, put_conn, put_entry, put_line, put_members, put_message_event, put_outcome, put_rules_event,
    put_verdict_event,
};
use crate::script::{for_each_item, read_all, Fault};
use crate::values::{call_refusal, Cred, Entry, Op, Verdict, NO_GROUP};
use crate::words::{read_call, read_conn, read_node, read_u32};

/// A connection's verdict, and the lines of its group's text that it is told after that.
struct Piece {
    place: u32,
    verdict: Verdict,
    group: u32,
    from: u32,
    to: u32,
    /// The next piece of the same inbox, or `NO_PIECE`.
    next: u32,
}

const NO_PIECE: u32 = u32::MAX;

/// What is told up to the end of the group's text.
const OPEN: u32 = u32::MAX;

struct JudgedInbox {
    node: u8,
    conn: u16,
    /// The first and the last of its pieces, or `NO_PIECE`.
    first: u32,
    last: u32,
}

/// What a group's members are told, one line after the other, and the text of its members.
struct GroupText {
    members: Vec<u8>,
    lines: Vec<u8>,
}

struct Judging {
    policy: Policy,
    texts: Vec<GroupText>,
    inboxes: Vec<JudgedInbox>,
    /// The pieces of all inboxes.
    pieces: Vec<Piece>,
    /// The inbox of each connection of each node, or `NO_INBOX`.
    found: Vec<Vec<u32>>,
}

const NO_INBOX: u32 = u32::MAX;

fn read_entry(before: usize, words: &[&[u8]], _keeps: bool) -> Option<Entry> {
    let (at, pid, uid, gid, call) = match words {
        [at, pid, uid, gid, call @ ..] => (at, pid, uid, gid, call),
        _ => return None,
    };
    let dot = at.iter().position(|byte| *byte == b'.')?;
    let (node, conn) = (read_node(MOST_NODES, &at[..dot])?, read_conn(&at[dot + 1..])?);
    let (pid, cred) = (read_u32(pid)?, Cred { uid: read_u32(uid)?, gid: read_u32(gid)? });
    let op = match call {
        [b"gone"] => Op::Gone,
        call => read_call(call, true)?,
    };
    if call_refusal(&op).is_some() || before >= MOST_PLACES as usize {
        return None;
    }
    Some(Entry { node, conn, pid, cred, op })
}

impl Judging {
    fn new() -> Judging {
        let found = (0..MOST_NODES).map(|_| Vec::new()).collect();
        Judging { policy: Policy::new(0), texts: Vec::new(), inboxes: Vec::new(), pieces: Vec::new(), found }
    }

    /// The number of the connection's inbox, which is made where there is none.
    fn inbox_of(&mut self, node: u8, conn: u16) -> usize {
        let conns = &mut self.found[usize::from(node) - 1];
        let at = usize::from(conn);
        if conns.len() <= at {
            conns.resize(at + 1, NO_INBOX);
        }
        if conns[at] == NO_INBOX {
            conns[at] = self.inboxes.len() as u32;
            self.inboxes.push(JudgedInbox { node, conn, first: NO_PIECE, last: NO_PIECE });
        }
        conns[at] as usize
    }

    /// The length of what the group's members are told so far.
    fn end_of(&self, group: u32) -> u32 {
        self.texts.get(group as usize).map_or(0, |text| text.lines.len() as u32)
    }

    /// Puts what an allowed entry tells its group.
    fn tell(&mut self, place: u32, entry: &Entry, judged: &Judged) {
        let group = &self.policy.groups[judged.group as usize];
        let text = &mut self.texts[judged.group as usize];
        let name = group.name.as_slice();
        match (&entry.op, judged.moved) {
            (Op::Send(message), _) => {
                put_message_event(&mut text.lines, place, name, entry.node, entry.pid, message.as_slice());
            }
            (_, Some((member, cause))) => {
                text.members.clear();
                put_members(&mut text.members, &group.members);
                put_change_event(&mut text.lines, place, name, &text.members, &member, cause);
            }
            _ => put_rules_event(&mut text.lines, place, name),
        }
    }

    /// The piece of the connection's inbox that begins with its own entry: the group that it is in then tells it what
    /// comes from there on; one that it left tells it that.
    fn piece(&self, place: u32, entry: &Entry, judged: &Judged, before: u32) -> Piece {
        let is_told = judged.verdict.is_allowed() && judged.group != NO_GROUP;
        let after = self.policy.standing_of(entry.node, entry.conn);
        let (group, from, to) = if after == NO_GROUP && is_told && judged.moved.is_some() {
            (judged.group, before, self.end_of(judged.group))
        } else if after == judged.group && is_told {
            (after, before, OPEN)
        } else {
            (after, self.end_of(after), OPEN)
        };
        Piece { place, verdict: judged.verdict, group, from, to, next: NO_PIECE }
    }

    /// Puts the piece behind the others of its inbox.
    fn add(&mut self, inbox: usize, piece: Piece) {
        let at = self.pieces.len() as u32;
        let inbox = &mut self.inboxes[inbox];
        match self.pieces.get_mut(inbox.last as usize) {
            Some(last) => last.next = at,
            None => inbox.first = at,
        }
        inbox.last = at;
        self.pieces.push(piece);
    }

    fn enter(&mut self, out: &mut Vec<u8>, place: u32, entry: &Entry) {
        let inbox = self.inbox_of(entry.node, entry.conn);
        let joined = self.policy.standing_of(entry.node, entry.conn);
        let end = self.end_of(joined);
        let last = self.inboxes[inbox].last as usize;
        if let Some(piece) = self.pieces.get_mut(last).filter(|piece| piece.to == OPEN) {
            piece.to = end;
        }
        let judged = self.policy.enter(place, entry);
        while self.texts.len() < self.policy.groups.len() {
            self.texts.push(GroupText { members: vec![b'-'], lines: Vec::new() });
        }
        let before = self.end_of(judged.group);
        if judged.verdict.is_allowed() && judged.group != NO_GROUP {
            self.tell(place, entry, &judged);
        }
        let piece = self.piece(place, entry, &judged, before);
        self.add(inbox, piece);
        put_entry(out, place, entry);
        let group = self.policy.groups.get(judged.group as usize);
        let shown = group.map(|group| (group.name.as_slice(), &self.texts[judged.group as usize].members[..]));
        put_outcome(out, judged.verdict, shown);
    }

    fn put_inbox(&self, out: &mut Output, inbox: &JudgedInbox) -> Result<(), Fault> {
        put(&mut out.text, "inbox ");
        put_conn(&mut out.text, inbox.node, inbox.conn);
        out.text.push(b'\n');
        let mut at = inbox.first;
        while let Some(piece) = self.pieces.get(at as usize) {
            at = piece.next;
            put_verdict_event(&mut out.text, piece.place, piece.verdict);
            if let Some(text) = self.texts.get(piece.group as usize) {
                let to = text.lines.len().min(piece.to as usize);
                out.put_lines(&text.lines[to.min(piece.from as usize)..to])?;
            }
            out.flush_much()?;
        }
        Ok(())
    }
}

pub fn run_judge() -> Result<(), Fault> {
    let script = read_all()?;
    let mut judging = Judging::new();
    let mut out = Output::new();
    let mut place = 0;
    for_each_item(&script, read_entry, |entry| {
        place += 1;
        judging.enter(&mut out.text, place, &entry);
        out.flush_much()
    })?;
    drop(script);
    put_line(&mut out.text, "records ", u64::from(place));
    for inbox in &judging.inboxes {
        judging.put_inbox(&mut out, inbox)?;
    }
    out.flush()
}
