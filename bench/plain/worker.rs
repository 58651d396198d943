//! The thread of a node in a running cluster: its turns, and how it rests between them.

use crate::board::Board;
use crate::door::{Desk, Inbox, Shared, AWAKE, DEEP, LIGHT};
use crate::frames::{Frame, Heard, Token};
use crate::node::Node;
use crate::reading::read_frame;
use crate::values::{Entry, Event};
use std::hint::spin_loop;
use std::sync::atomic::Ordering;
use std::sync::mpsc::{Receiver, SyncSender};
use std::sync::Arc;
use std::thread;

/// After how many idle turns in a row a node sends its last token again.
const IDLE_TURNS: u32 = 64;

/// For how many idle turns in a row a thread only spins, and until which it yields; after that it sleeps until a frame
/// comes. Where the nodes share processors with others, sleeping soon is what lets the one with the token run.
const SPUN_TURNS: u32 = 4;
const YIELDED_TURNS: u32 = 6;
const SPINS: u32 = 16;

/// For how many microseconds a thread sleeps at most until a frame comes, times the tokens sent again up to a limit.
const LIGHT_MICROS: u64 = 50;
const SLOWEST: u64 = 16;

/// After how many tokens in a row that brought and took nothing a thread yields between its turns; after how many, and
/// these hops more, the ring is at rest; and for how many microseconds a thread of it then sleeps at most, until a call
/// or data come.
const CALM_TOKENS: u32 = 4;
const REST_TOKENS: u32 = 8;
const REST_HOPS: u32 = 64;
const DEEP_MICROS: u64 = 50_000;

pub struct Outgoing {
    pub to: u8,
    pub link: SyncSender<Frame>,
}

/// What a turn did.
#[derive(Clone, Copy, PartialEq)]
enum Turn {
    /// It took no frame.
    Idle,
    /// It passed a token on, which brought nothing and took nothing along; or a token was refused.
    Quiet,
    /// It took or sent data.
    Busy,
}

/// A node with its thread's ends of links.
pub struct Worker {
    shared: Arc<Shared>,
    /// Whether it goes by the proved steps.
    is_locked: bool,
    pub node: Node,
    pub incoming: Vec<Receiver<Frame>>,
    /// The first goes to the next node.
    pub outgoing: Vec<Outgoing>,
    inboxes: Vec<Arc<Inbox>>,
    placed: Vec<Entry>,
    frames: Vec<Frame>,
    came: Vec<Frame>,
    told: Vec<(u16, Event)>,
    /// How many of the last turns were idle since a token was sent again.
    idle: u32,
    /// How many tokens in a row brought and took nothing; and how many of these let the ring rest.
    quiet: u32,
    rest_tokens: u32,
    /// How often a token was sent again since a frame came.
    resent: u64,
}

impl Worker {
    pub fn new(shared: Arc<Shared>, node: Node) -> Worker {
        let rest_tokens = REST_TOKENS + REST_HOPS / u32::from(node.settings.nodes);
        let is_locked = shared.board.is_some();
        Worker {
            shared,
            is_locked,
            node,
            incoming: Vec::new(),
            outgoing: Vec::new(),
            inboxes: Vec::new(),
            placed: Vec::new(),
            frames: Vec::new(),
            came: Vec::new(),
            told: Vec::new(),
            idle: 0,
            quiet: 0,
            rest_tokens,
            resent: 0,
        }
    }

    /// Takes the first waiting entries, so many at most, from the desk that is held, or under its lock.
    fn take_waiting(&mut self, held: Option<&mut Desk>, most: usize) {
        let door = self.shared.door(self.node.id);
        if most == 0 || door.count.load(Ordering::SeqCst) == 0 {
            return;
        }
        let mut own;
        let desk: &mut Desk = match held {
            Some(desk) => desk,
            None => {
                own = door.desk.lock().unwrap();
                &mut own
            }
        };
        let count = most.min(desk.waiting.len());
        self.placed.extend(desk.waiting.drain(..count));
        door.count.store(desk.waiting.len(), Ordering::SeqCst);
    }

    /// Sends the packets to all others, and the last frame, a token, to the next node. What finds a link full is lost.
    fn send_all(&mut self) {
        let packets = self.frames.len() - 1;
        for end in &self.outgoing {
            if end.to != self.node.id {
                for frame in &self.frames[..packets] {
                    let _ = end.link.try_send(frame.clone());
                }
            }
        }
        if let (Some(end), Some(token)) = (self.outgoing.first(), self.frames.pop()) {
            let _ = end.link.try_send(token);
            self.shared.door(end.to).bell.ring(LIGHT);
        }
        self.frames.clear();
        if packets > 0 {
            self.shared.ring_all(DEEP);
        }
    }

    /// What the visit sends waits until the desk that is held is let go.
    fn hear_token(&mut self, held: Option<&mut Desk>, token: Token) -> Turn {
        if self.node.token_refusal(&token).is_some() {
            return Turn::Quiet;
        }
        if !self.frames.is_empty() {
            self.send_all();
        }
        let is_held = held.is_some();
        let room = self.node.room(&token);
        self.take_waiting(held, room);
        self.node.visit(&token, &mut self.placed, &mut self.frames);
        let is_quiet = self.frames.len() == 1 && token.rtr.is_empty() && token.aru == token.seq;
        if !is_held {
            self.send_all();
        }
        if is_quiet {
            Turn::Quiet
        } else {
            Turn::Busy
        }
    }

    fn hear(&mut self, held: Option<&mut Desk>, frame: &Frame) -> Turn {
        match read_frame(frame) {
            None => Turn::Busy,
            Some(Heard::Token(token)) => self.hear_token(held, token),
            Some(Heard::Packet(packet)) => {
                let _ = self.node.hear_packet(packet);
                Turn::Busy
            }
        }
    }

    /// Takes at most one frame from each link, and hears it.
    fn hear_each(&mut self) -> Turn {
        let mut turn = Turn::Idle;
        for at in 0..self.incoming.len() {
            if let Ok(frame) = self.incoming[at].try_recv() {
                let heard = self.hear(None, &frame);
                if turn != Turn::Busy {
                    turn = heard;
                }
            }
        }
        turn
    }

    /// The same in one section of the node's lock, for which an idle turn does not ask; what is sent is sent after it.
    fn hear_each_at_once(&mut self, shared: &Shared) -> Turn {
        let mut came = std::mem::replace(&mut self.came, Vec::new());
        came.extend(self.incoming.iter().flat_map(|link| link.try_recv().ok()));
        let mut turn = Turn::Idle;
        if !came.is_empty() {
            let mut desk = shared.door(self.node.id).desk.lock().unwrap();
            for frame in came.drain(..) {
                let heard = self.hear(Some(&mut desk), &frame);
                if turn != Turn::Busy {
                    turn = heard;
                }
            }
            drop(desk);
        }
        if !self.frames.is_empty() {
            self.send_all();
        }
        self.came = came;
        turn
    }

    /// The inbox of a connection here.
    fn find_inbox(&mut self, conn: u16) -> Option<Arc<Inbox>> {
        let at = usize::from(conn) - 1;
        if at >= self.inboxes.len() {
            self.inboxes = self.shared.door(self.node.id).desk.lock().unwrap().inboxes.clone();
        }
        self.inboxes.get(at).cloned()
    }

    /// Delivers all that the node can, and puts what sessions are told into their inboxes.
    fn deliver_all(&mut self) {
        while self.node.deliver(&mut self.told) {}
        let mut told = std::mem::replace(&mut self.told, Vec::new());
        {
            let mut events = told.drain(..).peekable();
            while let Some((conn, first)) = events.next() {
                let inbox = match self.find_inbox(conn) {
                    None => continue,
                    Some(inbox) => inbox,
                };
                let mut kept = inbox.events.lock().unwrap();
                kept.push(first);
                while events.peek().map_or(false, |(other, _)| *other == conn) {
                    kept.extend(events.next().map(|(_, event)| event));
                }
                inbox.some.store(true, Ordering::Release);
            }
        }
        self.told = told;
    }

    /// Delivers all that the node can in one section of its lock, settles each record on the board, and keeps what
    /// sessions are told.
    fn deliver_all_at_once(&mut self, shared: &Shared, board: &Board) {
        let mut desk = shared.door(self.node.id).desk.lock().unwrap();
        while self.node.deliver(&mut self.told) {
            if let Some(record) = self.node.records.last() {
                board.settle(self.node.delivered(), record);
            }
        }
        for (conn, event) in self.told.drain(..) {
            let at = usize::from(conn) - 1;
            if at < desk.kept.len() {
                desk.kept[at].push_back(event);
                desk.inboxes[at].some.store(true, Ordering::Release);
            }
        }
    }

    pub fn send_again(&mut self) {
        if let Some(frame) = self.node.timer() {
            self.frames.push(frame);
            self.send_all();
        }
    }

    /// What the thread goes by after a turn.
    fn count(&mut self, turn: Turn) {
        match turn {
            Turn::Idle => self.idle += 1,
            Turn::Quiet => {
                self.idle = 0;
                self.resent = 0;
                self.quiet = self.quiet.saturating_add(1);
            }
            Turn::Busy => {
                self.idle = 0;
                self.resent = 0;
                self.quiet = 0;
            }
        }
        if self.idle >= IDLE_TURNS {
            self.idle = 0;
            self.resent += 1;
            self.send_again();
        }
    }

    fn turn(&mut self) -> Turn {
        let turn = if self.is_locked {
            self.turn_at_once()
        } else {
            let turn = self.hear_each();
            if turn == Turn::Busy {
                self.deliver_all();
            }
            turn
        };
        self.count(turn);
        turn
    }

    /// A turn by the proved steps.
    fn turn_at_once(&mut self) -> Turn {
        let shared = self.shared.clone();
        let turn = self.hear_each_at_once(&shared);
        if let (Turn::Busy, Some(board)) = (turn, &shared.board) {
            self.deliver_all_at_once(&shared, board);
        }
        turn
    }

    /// Sleeps once, unless the turn after the sleep was announced finds something: any frame, or of a ring at rest
    /// more than a token that passes by. Says whether it was woken.
    fn sleep(&mut self, depth: u8, micros: u64) -> bool {
        let shared = self.shared.clone();
        let bell = &shared.door(self.node.id).bell;
        bell.depth.store(depth, Ordering::SeqCst);
        let turn = self.turn();
        let finds_none = turn == Turn::Idle || turn == Turn::Quiet && depth == DEEP;
        if finds_none && !shared.halted.load(Ordering::SeqCst) {
            bell.sleep(micros);
        }
        bell.depth.swap(AWAKE, Ordering::SeqCst) == AWAKE
    }

    /// Rests until a call or data come; not for a token alone.
    fn rest_deep(&mut self) {
        self.shared.resting.fetch_add(1, Ordering::SeqCst);
        if self.shared.any_waiting() || self.sleep(DEEP, DEEP_MICROS) {
            self.quiet = 0;
        }
        self.shared.resting.fetch_sub(1, Ordering::SeqCst);
    }

    /// What is done between two turns.
    fn rest(&mut self) {
        match self.idle {
            _ if self.quiet >= self.rest_tokens => self.rest_deep(),
            0 if self.quiet >= CALM_TOKENS => thread::yield_now(),
            0 => {}
            idle if idle <= SPUN_TURNS => (0..SPINS).for_each(|_| spin_loop()),
            idle if idle <= YIELDED_TURNS => thread::yield_now(),
            _ => {
                self.sleep(LIGHT, LIGHT_MICROS * (1 + self.resent.min(SLOWEST)));
            }
        }
    }

    pub fn run(mut self) -> Worker {
        let _ = self.shared.door(self.node.id).bell.thread.set(thread::current());
        while !self.shared.halted.load(Ordering::Relaxed) {
            self.turn();
            self.rest();
        }
        self
    }
}
