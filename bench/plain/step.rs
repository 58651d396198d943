//! The command `step`: a world of nodes, one event at a time.

use crate::accept_list::AcceptList;
use crate::bytes::Bytes;
use crate::frames::Frame;
use crate::host::Host;
use crate::limits::{MOST_HOPS, MOST_NODES, MOST_PLACES};
use crate::node::Settings;
use crate::output::Output;
use crate::reading::read_frame;
use crate::print::{put, put_event, put_frame, put_line, put_members, put_refusal};
use crate::script::{for_each_item, read_all, Fault};
use crate::values::{Cred, Event, Op, Refusal};
use crate::words::{read_call, read_conn, read_node, read_number, read_u32};

enum Command {
    Connect(u8, u32, Cred),
    Call(u8, u16, Op),
    Disconnect(u8, u16),
    Frame(u8, u64),
    Timer(u8),
    Deliver(u8),
    Take(u8, u16),
    List(u8, u16, Bytes),
    Groups(u8, u16),
    Show(u64),
    Audit(u8),
    Rules(u8, Bytes),
    Safe(u8),
}

#[inline]
fn read_command(nodes: u8, words: &[&[u8]], keeps: bool) -> Option<Command> {
    let node = |word: &[u8]| read_node(nodes, word);
    match words {
        [b"connect", at, pid, uid, gid] => {
            let (at, pid) = (node(at)?, read_u32(pid)?);
            Some(Command::Connect(at, pid, Cred { uid: read_u32(uid)?, gid: read_u32(gid)? }))
        }
        [b"call", at, conn, call @ ..] => Some(Command::Call(node(at)?, read_conn(conn)?, read_call(call, keeps)?)),
        [b"disconnect", at, conn] => Some(Command::Disconnect(node(at)?, read_conn(conn)?)),
        [b"frame", at, number] => Some(Command::Frame(node(at)?, read_number(0, u64::MAX, number)?)),
        [b"timer", at] => Some(Command::Timer(node(at)?)),
        [b"deliver", at] => Some(Command::Deliver(node(at)?)),
        [b"take", at, conn] => Some(Command::Take(node(at)?, read_conn(conn)?)),
        [b"list", at, conn, group] => Some(Command::List(node(at)?, read_conn(conn)?, Bytes::copy_of(group))),
        [b"groups", at, conn] => Some(Command::Groups(node(at)?, read_conn(conn)?)),
        [b"show", number] => Some(Command::Show(read_number(0, u64::MAX, number)?)),
        [b"audit", at] => Some(Command::Audit(node(at)?)),
        [b"rules", at, group] => Some(Command::Rules(node(at)?, Bytes::copy_of(group))),
        [b"safe", at] => Some(Command::Safe(node(at)?)),
        _ => None,
    }
}

/// All nodes, and all frames ever sent.
struct World {
    hosts: Vec<Host>,
    sent: Vec<Frame>,
    list: AcceptList,
    told: Vec<(u16, Event)>,
}

impl World {
    fn new(settings: Settings, list: AcceptList) -> World {
        let mut hosts: Vec<Host> = (1..settings.nodes + 1).map(|id| Host::new(settings, id)).collect();
        let sent = hosts.last_mut().and_then(|host| host.node.timer()).into_iter().collect();
        World { hosts, sent, list, told: Vec::new() }
    }

    fn host(&mut self, node: u8) -> &mut Host {
        &mut self.hosts[usize::from(node) - 1]
    }

    fn frame(&self, number: u64) -> Option<&Frame> {
        self.sent.get((number as usize).wrapping_sub(1))
    }

    /// A frame comes to a node; gives how many it sends.
    fn bring(&mut self, node: u8, number: u64) -> Result<usize, Refusal> {
        let frame = self.frame(number).ok_or(Refusal::NoFrame)?;
        let heard = read_frame(frame).ok_or(Refusal::Malformed)?;
        let before = self.sent.len();
        self.hosts[usize::from(node) - 1].hear(heard, &mut self.sent)?;
        Ok(self.sent.len() - before)
    }

    fn send_again(&mut self, node: u8) -> usize {
        match self.host(node).node.timer() {
            None => 0,
            Some(frame) => {
                self.sent.push(frame);
                1
            }
        }
    }

    fn put_delivered(&mut self, out: &mut Vec<u8>, node: u8) {
        match self.hosts[usize::from(node) - 1].deliver(&mut self.told) {
            None => put(out, "delivered none\n"),
            Some(place) => put_line(out, "delivered ", u64::from(place)),
        }
    }

    fn put_taken(&mut self, out: &mut Vec<u8>, node: u8, conn: u16) -> Result<(), Refusal> {
        match self.host(node).open(conn)?.events.pop_front() {
            None => put(out, "none\n"),
            Some(event) => put_event(out, &event),
        }
        Ok(())
    }

    fn put_listed(&mut self, out: &mut Vec<u8>, node: u8, conn: u16, name: &[u8]) -> Result<(), Refusal> {
        let members = self.host(node).list(conn, name)?;
        put(out, "members ");
        put_members(out, &members);
        out.push(b'\n');
        Ok(())
    }

    fn put_groups(&mut self, out: &mut Vec<u8>, node: u8, conn: u16) -> Result<(), Refusal> {
        let names = self.host(node).groups(conn)?;
        put(out, "groups");
        for name in names {
            out.push(b' ');
            out.extend_from_slice(name);
        }
        out.push(b'\n');
        Ok(())
    }

    /// Does what the command says, and puts its lines; but not that of a refusal.
    fn answer(&mut self, out: &mut Vec<u8>, command: Command) -> Result<(), Refusal> {
        match command {
            Command::Connect(node, pid, cred) => {
                let conn = self.hosts[usize::from(node) - 1].connect(&self.list, pid, cred)?;
                put_line(out, "connected ", conn as u64);
            }
            Command::Call(node, conn, op) => {
                self.host(node).submit(conn, op)?;
                put(out, "admitted\n");
            }
            Command::Disconnect(node, conn) => {
                self.host(node).disconnect(conn)?;
                put(out, "closed\n");
            }
            Command::Frame(node, number) => {
                let count = self.bring(node, number)?;
                put_line(out, "sent ", count as u64);
            }
            Command::Timer(node) => {
                let count = self.send_again(node);
                put_line(out, "sent ", count as u64);
            }
            Command::Deliver(node) => self.put_delivered(out, node),
            Command::Take(node, conn) => self.put_taken(out, node, conn)?,
            Command::List(node, conn, name) => self.put_listed(out, node, conn, name.as_slice())?,
            Command::Groups(node, conn) => self.put_groups(out, node, conn)?,
            Command::Show(number) => put_frame(out, self.frame(number).ok_or(Refusal::NoFrame)?),
            Command::Audit(node) => self.host(node).put_audit(out),
            Command::Rules(node, name) => self.host(node).put_rules(out, name.as_slice()),
            Command::Safe(node) => put_line(out, "safe ", u64::from(self.host(node).node.safe())),
        }
        Ok(())
    }
}

pub fn run_step(settings: Settings, list: AcceptList) -> Result<(), Fault> {
    let script = read_all()?;
    let mut world = World::new(settings, list);
    let mut out = Output::new();
    let read = |_, words: &[&[u8]], keeps| read_command(settings.nodes, words, keeps);
    for_each_item(&script, read, |command| {
        if let Err(refusal) = world.answer(&mut out.text, command) {
            put_refusal(&mut out.text, refusal);
        }
        out.flush_much()
    })?;
    out.flush()
}

/// The settings and the accept list that the words after `step` ask for, if they do.
pub fn read_step(words: &[String]) -> Option<(Settings, AcceptList)> {
    let mut settings = Settings { ring: 1, nodes: 2, places: 4_096, hops: MOST_HOPS };
    let mut list = AcceptList::default();
    let mut words = words.iter();
    while let Some(word) = words.next() {
        let mut parts = word.splitn(2, '=');
        let name = parts.next()?;
        if !name.starts_with("--") {
            if !list.add(word.as_bytes()) {
                return None;
            }
            continue;
        }
        let value = match parts.next() {
            Some(value) => value.as_bytes(),
            None => words.next()?.as_bytes(),
        };
        match name {
            "--ring" => settings.ring = read_u32(value)?,
            "--nodes" => settings.nodes = read_node(MOST_NODES, value)?,
            "--places" => settings.places = read_number(1, u64::from(MOST_PLACES), value)? as u32,
            "--hops" => settings.hops = read_number(1, MOST_HOPS, value)?,
            _ => return None,
        }
    }
    Some((settings, list))
}
