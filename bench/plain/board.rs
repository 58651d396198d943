//! The board of a cluster that goes by the proved one's steps: a record for each place, put there by the node that
//! judged it first, and compared with its own by each of the others.

use crate::values::Record;
use std::sync::atomic::{AtomicBool, Ordering};
use std::sync::OnceLock;

pub struct Board {
    cells: Vec<OnceLock<Record>>,
    /// Whether a node judged a place otherwise than the first one.
    pub differs: AtomicBool,
}

impl Board {
    pub fn new(places: u32) -> Board {
        Board { cells: (0..places).map(|_| OnceLock::new()).collect(), differs: AtomicBool::new(false) }
    }

    /// Puts the record of the place, or holds it to the one that is there.
    pub fn settle(&self, place: u32, record: &Record) {
        let mut is_first = false;
        let there = self.cells[place as usize - 1].get_or_init(|| {
            is_first = true;
            record.clone()
        });
        if !is_first && *there != *record {
            self.differs.store(true, Ordering::SeqCst);
        }
    }
}
