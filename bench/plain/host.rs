//! A node of the world of `step`, with its connections.

use crate::accept_list::AcceptList;
use crate::frames::{Frame, Heard};
use crate::limits::{MOST_CONNECTIONS, MOST_WAITING};
use crate::node::{Node, Settings};
use crate::policy::Group;
use crate::print::{put, put_entry, put_members, put_outcome, put_rule_words, put_u32, put_with};
use crate::values::{call_refusal, Cred, Effect, Entry, Event, Members, Op, Refusal, Right};
use std::collections::VecDeque;

/// A connection of a node of the world.
pub struct Connection {
    pid: u32,
    cred: Cred,
    is_open: bool,
    pub events: VecDeque<Event>,
}

/// A node of the world, with its connections and what waits.
pub struct Host {
    pub node: Node,
    connections: Vec<Connection>,
    waiting: VecDeque<Entry>,
    /// How many of what waits are ends of connections.
    ends: usize,
}

impl Host {
    pub fn new(settings: Settings, id: u8) -> Host {
        Host { node: Node::new(settings, id), connections: Vec::new(), waiting: VecDeque::new(), ends: 0 }
    }

    /// The open connection of that number.
    pub fn open(&mut self, conn: u16) -> Result<&mut Connection, Refusal> {
        match self.connections.get_mut(usize::from(conn) - 1) {
            Some(connection) if connection.is_open => Ok(connection),
            _ => Err(Refusal::NoConnection),
        }
    }

    fn entry(&mut self, conn: u16, op: Op) -> Result<Entry, Refusal> {
        let node = self.node.id;
        let connection = self.open(conn)?;
        Ok(Entry { node, conn, pid: connection.pid, cred: connection.cred, op })
    }

    pub fn connect(&mut self, list: &AcceptList, pid: u32, cred: Cred) -> Result<usize, Refusal> {
        if !list.accepts(cred) {
            return Err(Refusal::Access);
        }
        if self.connections.len() >= MOST_CONNECTIONS {
            return Err(Refusal::ConnectionsFull);
        }
        self.connections.push(Connection { pid, cred, is_open: true, events: VecDeque::new() });
        Ok(self.connections.len())
    }

    pub fn submit(&mut self, conn: u16, op: Op) -> Result<(), Refusal> {
        let refusal = call_refusal(&op);
        let entry = self.entry(conn, op)?;
        if let Some(refusal) = refusal {
            return Err(refusal);
        }
        if self.waiting.len() - self.ends >= MOST_WAITING {
            return Err(Refusal::QueueFull);
        }
        self.waiting.push_back(entry);
        Ok(())
    }

    pub fn disconnect(&mut self, conn: u16) -> Result<(), Refusal> {
        let entry = self.entry(conn, Op::Gone)?;
        self.open(conn)?.is_open = false;
        self.waiting.push_back(entry);
        self.ends += 1;
        Ok(())
    }

    /// Hears what a frame says, and puts the frames that it sends.
    pub fn hear(&mut self, heard: Heard, sent: &mut Vec<Frame>) -> Result<(), Refusal> {
        let token = match heard {
            Heard::Packet(packet) => return self.node.hear_packet(packet),
            Heard::Token(token) => token,
        };
        if let Some(refusal) = self.node.token_refusal(&token) {
            return Err(refusal);
        }
        let count = self.node.room(&token).min(self.waiting.len());
        let mut placed: Vec<Entry> = self.waiting.drain(..count).collect();
        self.ends -= placed.iter().filter(|entry| matches!(entry.op, Op::Gone)).count();
        self.node.visit(&token, &mut placed, sent);
        Ok(())
    }

    pub fn deliver(&mut self, told: &mut Vec<(u16, Event)>) -> Option<u32> {
        if !self.node.deliver(told) {
            return None;
        }
        for (conn, event) in told.drain(..) {
            if let Ok(connection) = self.open(conn) {
                connection.events.push_back(event);
            }
        }
        Some(self.node.delivered())
    }

    pub fn list(&mut self, conn: u16, name: &[u8]) -> Result<Members, Refusal> {
        let cred = self.open(conn)?.cred;
        match self.node.policy.find(name) {
            None => Ok(Members::default()),
            Some(group) => match group.decide(Right::List, self.node.id, cred) {
                Some((Effect::Deny, id)) => Err(Refusal::Denied(id)),
                _ => Ok(group.members.clone()),
            },
        }
    }

    pub fn groups(&mut self, conn: u16) -> Result<Vec<&[u8]>, Refusal> {
        let cred = self.open(conn)?.cred;
        let node = self.node.id;
        let may_list = |group: &&Group| match group.decide(Right::List, node, cred) {
            Some((Effect::Deny, _)) => false,
            _ => !group.members.is_empty(),
        };
        let mut names: Vec<&[u8]> =
            self.node.policy.groups.iter().filter(may_list).map(|group| group.name.as_slice()).collect();
        names.sort();
        Ok(names)
    }

    pub fn put_audit(&self, out: &mut Vec<u8>) {
        let mut members = Vec::new();
        for (index, record) in self.node.records.iter().enumerate() {
            put_entry(out, index as u32 + 1, &record.entry);
            members.clear();
            let group = match &record.members {
                None => None,
                Some(list) => {
                    put_members(&mut members, list);
                    let group = &self.node.policy.groups[record.group as usize];
                    Some((group.name.as_slice(), members.as_slice()))
                }
            };
            put_outcome(out, record.verdict, group);
        }
        put_with(out, "records ", u64::from(self.node.delivered()));
        out.push(b'\n');
    }

    pub fn put_rules(&self, out: &mut Vec<u8>, name: &[u8]) {
        let none = Vec::new();
        let table = self.node.policy.find(name).map_or(&none, |group| &group.table);
        for (id, rule) in table {
            put_u32(out, *id);
            put(out, " ");
            put_rule_words(out, rule);
            out.push(b'\n');
        }
        put_with(out, "rules ", table.len() as u64);
        out.push(b'\n');
    }
}
