//! Sessions of a running cluster: how a process submits its calls and takes its events.

use crate::door::{Inbox, Shared, DEEP};
use crate::limits::{MOST_CONNECTIONS, MOST_WAITING};
use crate::values::{call_refusal, Cred, Entry, Event, Op, Refusal};
use std::collections::VecDeque;
use std::sync::atomic::{AtomicBool, Ordering};
use std::sync::{Arc, Mutex};

/// How many events are taken for one lock at most, by the proved steps.
const MOST_AT_ONCE: usize = 256;

/// A process at a node. It takes its events many at a time, and hands them out one by one.
pub struct Session {
    shared: Arc<Shared>,
    node: u8,
    conn: u16,
    pid: u32,
    cred: Cred,
    inbox: Arc<Inbox>,
    /// Events that were taken from the inbox, the last one first.
    taken: Vec<Event>,
}

impl Session {
    /// A session of a process that the node lets in: the root user or group alone.
    pub fn connect(shared: &Arc<Shared>, node: u8, pid: u32, cred: Cred) -> Result<Session, Refusal> {
        if cred.uid != 0 && cred.gid != 0 {
            return Err(Refusal::Access);
        }
        let mut desk = shared.door(node).desk.lock().unwrap();
        if desk.inboxes.len() >= MOST_CONNECTIONS {
            return Err(Refusal::ConnectionsFull);
        }
        let inbox = Arc::new(Inbox { events: Mutex::new(Vec::new()), some: AtomicBool::new(false) });
        desk.inboxes.push(inbox.clone());
        desk.kept.push(VecDeque::new());
        let conn = desk.inboxes.len() as u16;
        Ok(Session { shared: shared.clone(), node, conn, pid, cred, inbox, taken: Vec::new() })
    }

    /// Puts the call last among what waits. It comes back where it is refused.
    pub fn submit(&self, op: Op) -> Result<(), (Refusal, Op)> {
        if let Some(refusal) = call_refusal(&op) {
            return Err((refusal, op));
        }
        let door = self.shared.door(self.node);
        if self.shared.board.is_none() && door.count.load(Ordering::Relaxed) >= MOST_WAITING {
            return Err((Refusal::QueueFull, op));
        }
        let mut desk = door.desk.lock().unwrap();
        if desk.waiting.len() >= MOST_WAITING {
            return Err((Refusal::QueueFull, op));
        }
        desk.waiting.push_back(Entry { node: self.node, conn: self.conn, pid: self.pid, cred: self.cred, op });
        door.count.store(desk.waiting.len(), Ordering::SeqCst);
        drop(desk);
        if self.shared.resting.load(Ordering::SeqCst) > 0 {
            self.shared.ring_all(DEEP);
        }
        Ok(())
    }

    /// Puts the calls last among what waits, from the first on, under one lock, until one is refused; those left stay.
    pub fn submit_many(&self, calls: &mut VecDeque<Op>) -> Result<(), Refusal> {
        let door = self.shared.door(self.node);
        if self.shared.board.is_none() && door.count.load(Ordering::Relaxed) >= MOST_WAITING {
            return Err(Refusal::QueueFull);
        }
        let mut answer = Ok(());
        let before = calls.len();
        let mut desk = door.desk.lock().unwrap();
        while let Some(op) = calls.pop_front() {
            let refusal =
                call_refusal(&op).or_else(|| Some(Refusal::QueueFull).filter(|_| desk.waiting.len() >= MOST_WAITING));
            if let Some(refusal) = refusal {
                calls.push_front(op);
                answer = Err(refusal);
                break;
            }
            desk.waiting.push_back(Entry { node: self.node, conn: self.conn, pid: self.pid, cred: self.cred, op });
        }
        door.count.store(desk.waiting.len(), Ordering::SeqCst);
        drop(desk);
        if calls.len() < before && self.shared.resting.load(Ordering::SeqCst) > 0 {
            self.shared.ring_all(DEEP);
        }
        answer
    }

    /// Takes events by the proved steps, so many at most in one section of the node's lock, which is not asked for
    /// where nothing was told since the last one.
    fn take_some(&mut self) {
        let mut desk = self.shared.door(self.node).desk.lock().unwrap();
        let kept = &mut desk.kept[usize::from(self.conn) - 1];
        let count = kept.len().min(MOST_AT_ONCE);
        self.taken.extend(kept.drain(..count));
        if kept.is_empty() {
            self.inbox.some.store(false, Ordering::Release);
        }
        drop(desk);
        self.taken.reverse();
    }

    pub fn take(&mut self) -> Option<Event> {
        if self.shared.board.is_some() {
            if self.taken.is_empty() && self.inbox.some.load(Ordering::Acquire) {
                self.take_some();
            }
            return self.taken.pop();
        }
        if self.taken.is_empty() && self.inbox.some.load(Ordering::Acquire) {
            let mut events = self.inbox.events.lock().unwrap();
            std::mem::swap(&mut *events, &mut self.taken);
            self.inbox.some.store(false, Ordering::Release);
            drop(events);
            self.taken.reverse();
        }
        self.taken.pop()
    }
}
