//! One node's part of the ring: what it hears, holds, sends and delivers.

use crate::frames::{share_message, spell_packet, spell_token, Frame, Packet, Token};
use crate::limits::{MOST_BURST, MOST_REQUESTS, WINDOW};
use crate::policy::Policy;
use crate::values::{Entry, Event, Record, Refusal};

#[derive(Clone, Copy)]
pub struct Settings {
    pub ring: u32,
    pub nodes: u8,
    pub places: u32,
    pub hops: u64,
}

/// A node: what it holds, delivered and judged. What waits stands elsewhere.
pub struct Node {
    pub settings: Settings,
    pub id: u8,
    /// The last hop that it accepted.
    hop: Option<u64>,
    /// The last token that it sent.
    pub last: Option<Token>,
    /// What is held past the delivered places: place p in slot p mod 64.
    slots: Vec<Option<Entry>>,
    /// The greatest place that it holds.
    top: u32,
    /// The aru of the tokens that it forwarded at its last two visits.
    arus: [u32; 2],
    pub policy: Policy,
    pub records: Vec<Record>,
    scratch: Vec<u8>,
}

fn first_token(settings: &Settings) -> Token {
    Token { ring: settings.ring, hop: 0, seq: 0, aru: 0, aru_id: None, rtr: Vec::new() }
}

impl Node {
    pub fn new(settings: Settings, id: u8) -> Node {
        Node {
            settings,
            id,
            hop: None,
            last: if id == settings.nodes { Some(first_token(&settings)) } else { None },
            slots: (0..WINDOW).map(|_| None).collect(),
            top: 0,
            arus: [0, 0],
            policy: Policy::new(id),
            records: Vec::new(),
            scratch: Vec::new(),
        }
    }

    pub fn delivered(&self) -> u32 {
        self.records.len() as u32
    }

    pub fn safe(&self) -> u32 {
        self.arus[0].min(self.arus[1])
    }

    fn slot(&self, place: u32) -> &Option<Entry> {
        &self.slots[(place % WINDOW) as usize]
    }

    fn holds(&self, place: u32) -> bool {
        let delivered = self.delivered();
        place <= delivered || place - delivered <= WINDOW && self.slot(place).is_some()
    }

    fn hold(&mut self, place: u32, entry: Entry) {
        self.slots[(place % WINDOW) as usize] = Some(entry);
        self.top = self.top.max(place);
    }

    /// Takes in a packet.
    pub fn hear_packet(&mut self, packet: Packet) -> Result<(), Refusal> {
        if packet.ring != self.settings.ring {
            return Err(Refusal::Foreign);
        }
        if packet.place > self.settings.places {
            return Err(Refusal::Implausible);
        }
        if self.holds(packet.place) {
            return Err(Refusal::Held);
        }
        if packet.place - self.delivered() > WINDOW {
            return Err(Refusal::FarAhead);
        }
        self.hold(packet.place, packet.entry);
        Ok(())
    }

    pub fn token_refusal(&self, token: &Token) -> Option<Refusal> {
        if token.ring != self.settings.ring {
            Some(Refusal::Foreign)
        } else if token.hop % u64::from(self.settings.nodes) + 1 != u64::from(self.id) {
            Some(Refusal::NotMine)
        } else if self.hop.map_or(false, |hop| token.hop <= hop) {
            Some(Refusal::Stale)
        } else if token.seq < self.top || token.seq > self.settings.places {
            Some(Refusal::Implausible)
        } else if token.hop >= self.settings.hops {
            Some(Refusal::RingEnd)
        } else {
            None
        }
    }

    /// How many waiting entries a token that is accepted has places for.
    pub fn room(&self, token: &Token) -> usize {
        let left = self.settings.places - token.seq;
        let window = (self.delivered() + WINDOW).saturating_sub(token.seq);
        MOST_BURST.min(left as usize).min(window as usize)
    }

    /// Sends again what is asked for and held; gives what is asked for still.
    fn serve(&mut self, rtr: &[u32], out: &mut Vec<Frame>) -> Vec<u32> {
        let mut unserved = Vec::new();
        for place in rtr {
            let entry = match self.records.get(*place as usize - 1) {
                Some(record) => Some(&record.entry),
                None if self.holds(*place) => self.slots[(*place % WINDOW) as usize].as_ref(),
                None => None,
            };
            match entry {
                Some(entry) => out.push(spell_packet(&mut self.scratch, self.settings.ring, *place, entry)),
                None => unserved.push(*place),
            }
        }
        unserved
    }

    /// The greatest place up to which all are held.
    fn reach(&self) -> u32 {
        let mut place = self.delivered();
        let most = place + WINDOW;
        while place < most && self.slot(place + 1).is_some() {
            place += 1;
        }
        place
    }

    /// The least places to be asked for: those asked for already, and those that miss here.
    fn requests(&self, mut asked: Vec<u32>, reach: u32, seq: u32) -> Vec<u32> {
        if reach < seq {
            let most = seq.min(self.delivered() + WINDOW);
            asked.extend((reach + 1..most + 1).filter(|place| !self.holds(*place)));
            asked.sort();
            asked.dedup();
            asked.truncate(MOST_REQUESTS);
        }
        asked
    }

    /// The visit of a token that is accepted, with the entries that take places, no more than there is room for.
    /// Puts the packets that are sent, and then the token.
    pub fn visit(&mut self, token: &Token, placed: &mut Vec<Entry>, out: &mut Vec<Frame>) {
        let unserved = self.serve(&token.rtr, out);
        let mut seq = token.seq;
        for mut entry in placed.drain(..) {
            seq += 1;
            let frame = spell_packet(&mut self.scratch, self.settings.ring, seq, &entry);
            share_message(&mut entry, &frame);
            self.hold(seq, entry);
            out.push(frame);
        }
        let reach = self.reach();
        let (mut aru, mut aru_id) = (token.aru, token.aru_id);
        if reach < aru || aru_id.is_none() || aru_id == Some(self.id) {
            aru = reach;
            aru_id = if reach == seq { None } else { Some(self.id) };
        }
        let rtr = self.requests(unserved, reach, seq);
        let next = Token { ring: token.ring, hop: token.hop + 1, seq, aru, aru_id, rtr };
        out.push(spell_token(&mut self.scratch, &next));
        self.hop = Some(token.hop);
        self.arus = [self.arus[1], aru];
        self.last = Some(next);
    }

    /// The last token that was sent, to be sent again.
    pub fn timer(&mut self) -> Option<Frame> {
        let token = self.last.as_ref()?;
        Some(spell_token(&mut self.scratch, token))
    }

    /// Judges the next place, if it is held, and puts what it tells connections here.
    #[inline]
    pub fn deliver(&mut self, told: &mut Vec<(u16, Event)>) -> bool {
        let place = self.delivered() + 1;
        let entry = match self.slots[(place % WINDOW) as usize].take() {
            None => return false,
            Some(entry) => entry,
        };
        let judged = self.policy.enter(place, &entry);
        self.policy.tell(place, &entry, &judged, told);
        let members = self.policy.groups.get(judged.group as usize).map(|group| group.members.clone());
        self.records.push(Record { entry, verdict: judged.verdict, group: judged.group, members });
        true
    }
}
