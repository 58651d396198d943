//! Whom a node lets in.

use crate::values::Cred;
use crate::words::read_u32;
use std::collections::HashSet;

/// Whom a node lets in.
#[derive(Default)]
pub struct AcceptList {
    pub uids: HashSet<u32>,
    pub gids: HashSet<u32>,
}

impl AcceptList {
    pub fn answer(&self, cred: Cred) -> &'static str {
        if cred.uid == 0 {
            "accepted root-user\n"
        } else if cred.gid == 0 {
            "accepted root-group\n"
        } else if self.uids.contains(&cred.uid) {
            "accepted user\n"
        } else if self.gids.contains(&cred.gid) {
            "accepted group\n"
        } else {
            "refused 2 Access\n"
        }
    }

    pub fn accepts(&self, cred: Cred) -> bool {
        cred.uid == 0 || cred.gid == 0 || self.uids.contains(&cred.uid) || self.gids.contains(&cred.gid)
    }

    /// Adds what a word `uid:N` or `gid:N` says.
    pub fn add(&mut self, word: &[u8]) -> bool {
        if let Some(uid) = word.strip_prefix(b"uid:").and_then(read_u32) {
            self.uids.insert(uid);
            return true;
        }
        if let Some(gid) = word.strip_prefix(b"gid:").and_then(read_u32) {
            self.gids.insert(gid);
            return true;
        }
        false
    }
}
