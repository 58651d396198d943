//! Where sessions meet the nodes of a running cluster: what waits there, what was told, and how a thread is woken.

use crate::board::Board;
use crate::values::{Entry, Event};
use std::collections::VecDeque;
use std::sync::atomic::{AtomicBool, AtomicU8, AtomicUsize, Ordering};
use std::sync::{Arc, Mutex, OnceLock};
use std::thread::{self, Thread};
use std::time::Duration;

/// How deep a thread sleeps.
pub const AWAKE: u8 = 0;
pub const LIGHT: u8 = 1;
pub const DEEP: u8 = 2;

/// How a node's thread is woken.
pub struct Bell {
    pub depth: AtomicU8,
    pub thread: OnceLock<Thread>,
}

impl Bell {
    /// Wakes the thread where it sleeps no deeper than that.
    pub fn ring(&self, most: u8) {
        let depth = self.depth.load(Ordering::SeqCst);
        if depth != AWAKE && depth <= most {
            self.depth.store(AWAKE, Ordering::SeqCst);
            if let Some(thread) = self.thread.get() {
                thread.unpark();
            }
        }
    }

    pub fn sleep(&self, micros: u64) {
        if self.depth.load(Ordering::SeqCst) != AWAKE {
            thread::park_timeout(Duration::from_micros(micros));
        }
    }
}

/// The events that a connection has not taken yet.
pub struct Inbox {
    pub events: Mutex<Vec<Event>>,
    pub some: AtomicBool,
}

/// What a node knows of its connections, and what waits for the token.
pub struct Desk {
    pub inboxes: Vec<Arc<Inbox>>,
    /// By the proved steps: the events that each connection has not taken yet.
    pub kept: Vec<VecDeque<Event>>,
    pub waiting: VecDeque<Entry>,
}

/// Where sessions meet a node.
pub struct Door {
    pub desk: Mutex<Desk>,
    /// How many calls wait, so that a full queue is told without the lock.
    pub count: AtomicUsize,
    pub bell: Bell,
}

/// What all threads of a cluster share.
pub struct Shared {
    doors: Vec<Door>,
    /// How many threads are at rest.
    pub resting: AtomicUsize,
    pub halted: AtomicBool,
    /// Where it is there, the cluster goes by the proved one's steps: each call, each lot of events that is taken, the
    /// frames of a turn and its deliveries are one section of the node's lock, and each record is settled here.
    pub board: Option<Board>,
}

impl Shared {
    pub fn new(nodes: u8, board: Option<Board>) -> Shared {
        let door = |_| Door {
            desk: Mutex::new(Desk { inboxes: Vec::new(), kept: Vec::new(), waiting: VecDeque::new() }),
            count: AtomicUsize::new(0),
            bell: Bell { depth: AtomicU8::new(AWAKE), thread: OnceLock::new() },
        };
        let doors = (0..nodes).map(door).collect();
        Shared { doors, resting: AtomicUsize::new(0), halted: AtomicBool::new(false), board }
    }

    pub fn door(&self, node: u8) -> &Door {
        &self.doors[usize::from(node) - 1]
    }

    pub fn ring_all(&self, most: u8) {
        for door in &self.doors {
            door.bell.ring(most);
        }
    }

    pub fn any_waiting(&self) -> bool {
        self.doors.iter().any(|door| door.count.load(Ordering::SeqCst) > 0)
    }
}
