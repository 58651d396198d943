//! The groups and their rules: the judgement of entries, one after the other, and what each tells.

use crate::bytes::Name;
use crate::limits::{MOST_MEMBERS, MOST_NODES, MOST_RULES};
use crate::values::{
    Cause, Change, Cred, Effect, Entry, Event, Member, Members, Message, Op, Right, Rule, Told, Verdict, NO_GROUP,
};
use std::collections::HashMap;
use std::sync::Arc;

pub struct Group {
    pub name: Name,
    pub table: Vec<(u32, Rule)>,
    pub members: Members,
    /// The members' connections at the node that this policy is of.
    here: Vec<u16>,
}

impl Group {
    /// The effect and the id of the first rule that decides, if there is one.
    pub fn decide(&self, right: Right, node: u8, cred: Cred) -> Option<(Effect, u32)> {
        for (id, rule) in &self.table {
            let who = rule.who;
            let matches = rule.right == right
                && who.uid.map_or(true, |uid| uid == cred.uid)
                && who.gid.map_or(true, |gid| gid == cred.gid)
                && who.node.map_or(true, |at| at == node);
            if matches {
                return Some((rule.effect, *id));
            }
        }
        None
    }

    fn may(&self, right: Right, entry: &Entry) -> Verdict {
        match self.decide(right, entry.node, entry.cred) {
            Some((Effect::Allow, id)) => Verdict::AllowedRule(id),
            Some((Effect::Deny, id)) => Verdict::DeniedRule(id),
            None if right == Right::Edit => Verdict::DeniedDefault,
            None => Verdict::AllowedDefault,
        }
    }

    fn may_edit(&self, entry: &Entry) -> Verdict {
        if entry.cred.uid == 0 {
            Verdict::AllowedRoot
        } else {
            self.may(Right::Edit, entry)
        }
    }

    fn judge_join(&self, entry: &Entry, is_joined: bool) -> Verdict {
        let verdict = self.may(Right::Join, entry);
        if !verdict.is_allowed() {
            verdict
        } else if is_joined {
            Verdict::DeniedJoined
        } else if self.members.iter().any(|member| member.node == entry.node && member.pid == entry.pid) {
            Verdict::DeniedTwice
        } else if self.members.len() >= MOST_MEMBERS {
            Verdict::DeniedFull
        } else {
            verdict
        }
    }

    fn judge_insert(&self, entry: &Entry, position: u8) -> Verdict {
        let verdict = self.may_edit(entry);
        if !verdict.is_allowed() {
            verdict
        } else if usize::from(position) > self.table.len() {
            Verdict::DeniedPosition
        } else if self.table.len() >= MOST_RULES {
            Verdict::DeniedTableFull
        } else {
            verdict
        }
    }

    fn judge_remove(&self, entry: &Entry, id: u32) -> Verdict {
        let verdict = self.may_edit(entry);
        if verdict.is_allowed() && !self.table.iter().any(|(there, _)| *there == id) {
            Verdict::DeniedAbsent
        } else {
            verdict
        }
    }

    fn add(&mut self, member: Member, is_here: bool) {
        let mut members = Vec::with_capacity(self.members.len() + 1);
        members.extend_from_slice(&self.members);
        members.push(member);
        self.members = Arc::new(members);
        if is_here {
            self.here.push(member.conn);
        }
    }

    /// Takes the connection out of the members; gives it as it was listed.
    fn drop_member(&mut self, node: u8, conn: u16) -> Option<Member> {
        let at = self.members.iter().position(|member| member.node == node && member.conn == conn)?;
        let mut members = self.members.to_vec();
        let member = members.remove(at);
        self.members = Arc::new(members);
        Some(member)
    }
}

/// What the entries judged so far come to.
pub struct Policy {
    /// The node whose connections are told; 0 for none.
    home: u8,
    names: HashMap<Name, u32>,
    pub groups: Vec<Group>,
    /// The group that each connection of each node is in, or `NO_GROUP`.
    standing: Vec<Vec<u32>>,
}

/// What the judgement of an entry came to.
pub struct Judged {
    pub verdict: Verdict,
    pub group: u32,
    pub moved: Option<(Member, Cause)>,
}

impl Policy {
    pub fn new(home: u8) -> Policy {
        let standing = (0..MOST_NODES).map(|_| Vec::new()).collect();
        Policy { home, names: HashMap::new(), groups: Vec::new(), standing }
    }

    pub fn standing_of(&self, node: u8, conn: u16) -> u32 {
        let conns = &self.standing[usize::from(node) - 1];
        conns.get(usize::from(conn)).cloned().unwrap_or(NO_GROUP)
    }

    fn set_standing(&mut self, node: u8, conn: u16, group: u32) {
        let conns = &mut self.standing[usize::from(node) - 1];
        let at = usize::from(conn);
        if conns.len() <= at {
            conns.resize(at + 1, NO_GROUP);
        }
        conns[at] = group;
    }

    pub fn find(&self, name: &[u8]) -> Option<&Group> {
        self.names.get(name).map(|number| &self.groups[*number as usize])
    }

    /// The number of the group of that name, which is made where there is none.
    fn number_of(&mut self, name: &Name) -> u32 {
        if let Some(number) = self.names.get(name.as_slice()) {
            return *number;
        }
        let number = self.groups.len() as u32;
        self.names.insert(name.clone(), number);
        self.groups.push(Group {
            name: name.clone(),
            table: Vec::new(),
            members: Arc::new(Vec::new()),
            here: Vec::new(),
        });
        number
    }

    fn group_of(&mut self, entry: &Entry, joined: u32) -> u32 {
        match &entry.op {
            Op::Join(group) => self.number_of(group),
            Op::Insert(insertion) => self.number_of(&insertion.group),
            Op::Remove(removal) => self.number_of(&removal.group),
            Op::Leave | Op::Send(_) | Op::Gone => joined,
        }
    }

    fn verdict_on(&self, entry: &Entry, group: u32, joined: u32) -> Verdict {
        match &entry.op {
            Op::Gone => Verdict::AllowedFree,
            Op::Leave | Op::Send(_) if joined == NO_GROUP => Verdict::DeniedClosed,
            Op::Leave => Verdict::AllowedFree,
            Op::Send(_) => self.groups[group as usize].may(Right::Send, entry),
            Op::Join(_) => self.groups[group as usize].judge_join(entry, joined != NO_GROUP),
            Op::Insert(insertion) => self.groups[group as usize].judge_insert(entry, insertion.position),
            Op::Remove(removal) => self.groups[group as usize].judge_remove(entry, removal.id),
        }
    }

    fn join(&mut self, entry: &Entry, group: u32) -> Option<(Member, Cause)> {
        let member = Member { node: entry.node, conn: entry.conn, pid: entry.pid };
        self.groups[group as usize].add(member, entry.node == self.home);
        self.set_standing(entry.node, entry.conn, group);
        Some((member, Cause::Join))
    }

    fn leave(&mut self, entry: &Entry, group: u32, cause: Cause) -> Option<(Member, Cause)> {
        if group == NO_GROUP {
            return None;
        }
        let member = self.groups[group as usize].drop_member(entry.node, entry.conn)?;
        self.set_standing(entry.node, entry.conn, NO_GROUP);
        Some((member, cause))
    }

    /// What an allowed entry does.
    fn apply(&mut self, place: u32, entry: &Entry, group: u32) -> Option<(Member, Cause)> {
        match &entry.op {
            Op::Join(_) => self.join(entry, group),
            Op::Leave => self.leave(entry, group, Cause::Leave),
            Op::Gone => self.leave(entry, group, Cause::Down),
            Op::Send(_) => None,
            Op::Insert(insertion) => {
                let table = &mut self.groups[group as usize].table;
                table.insert(usize::from(insertion.position), (place, insertion.rule));
                None
            }
            Op::Remove(removal) => {
                self.groups[group as usize].table.retain(|(id, _)| *id != removal.id);
                None
            }
        }
    }

    /// Judges the entry of the next place, and does what it does.
    pub fn enter(&mut self, place: u32, entry: &Entry) -> Judged {
        let joined = self.standing_of(entry.node, entry.conn);
        let group = self.group_of(entry, joined);
        let verdict = self.verdict_on(entry, group, joined);
        let moved = if verdict.is_allowed() { self.apply(place, entry, group) } else { None };
        Judged { verdict, group, moved }
    }

    /// What a place tells the connections of this policy's node, after it was entered.
    #[inline]
    pub fn tell(&mut self, place: u32, entry: &Entry, judged: &Judged, told: &mut Vec<(u16, Event)>) {
        if entry.node == self.home {
            told.push((entry.conn, Event { place, told: Told::Verdict(judged.verdict) }));
        }
        if judged.group == NO_GROUP || !judged.verdict.is_allowed() {
            return;
        }
        let home = self.home;
        let group = &mut self.groups[judged.group as usize];
        for conn in &group.here {
            let what = match (&entry.op, judged.moved) {
                (Op::Send(text), _) => Told::Message(Message {
                    group: group.name.clone(),
                    node: entry.node,
                    pid: entry.pid,
                    text: text.clone(),
                }),
                (_, Some((member, cause))) => Told::Change(Box::new(Change {
                    group: group.name.clone(),
                    members: group.members.clone(),
                    member,
                    cause,
                })),
                _ => Told::RulesChanged(group.name.clone()),
            };
            told.push((*conn, Event { place, told: what }));
        }
        if let Some((member, Cause::Leave)) | Some((member, Cause::Down)) = judged.moved {
            if member.node == home {
                group.here.retain(|conn| *conn != member.conn);
            }
        }
    }
}
