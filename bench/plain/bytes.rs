//! The bytes of a message, and the name of a group: short ones in place.

use std::borrow::Borrow;
use std::hash::{Hash, Hasher};
use std::sync::Arc;

/// How many bytes stand inside `Bytes`.
pub const INSIDE: usize = 22;

/// The bytes of a message: a few stand inside, more are a part of a text that is shared.
#[derive(Clone)]
pub enum Bytes {
    Short(u8, [u8; INSIDE]),
    Long { text: Arc<Vec<u8>>, start: u16, length: u32 },
}

impl PartialEq for Bytes {
    fn eq(&self, other: &Bytes) -> bool {
        self.as_slice() == other.as_slice()
    }
}

impl Bytes {
    pub fn copy_of(bytes: &[u8]) -> Bytes {
        if bytes.len() <= INSIDE {
            let mut inside = [0; INSIDE];
            inside[..bytes.len()].copy_from_slice(bytes);
            Bytes::Short(bytes.len() as u8, inside)
        } else {
            let text = Arc::new(bytes.to_vec());
            Bytes::Long { text, start: 0, length: bytes.len() as u32 }
        }
    }

    #[inline]
    pub fn as_slice(&self) -> &[u8] {
        match self {
            Bytes::Short(length, inside) => &inside[..usize::from(*length)],
            Bytes::Long { text, start, length } => {
                let start = usize::from(*start);
                &text[start..start + *length as usize]
            }
        }
    }
}

/// How many bytes stand inside `Name`.
const IN_NAME: usize = 14;

/// The name of a group: most stand inside, a longer one is shared. With a byte for its kind it fits beside the kinds of
/// an op whose largest is a message.
#[derive(Clone)]
pub enum Name {
    Short(u8, [u8; IN_NAME]),
    Long(Arc<Vec<u8>>),
}

impl Name {
    pub fn copy_of(bytes: &[u8]) -> Name {
        if bytes.len() <= IN_NAME {
            let mut inside = [0; IN_NAME];
            inside[..bytes.len()].copy_from_slice(bytes);
            Name::Short(bytes.len() as u8, inside)
        } else {
            Name::Long(Arc::new(bytes.to_vec()))
        }
    }

    #[inline]
    pub fn as_slice(&self) -> &[u8] {
        match self {
            Name::Short(length, inside) => &inside[..usize::from(*length)],
            Name::Long(text) => text,
        }
    }
}

impl PartialEq for Name {
    fn eq(&self, other: &Name) -> bool {
        self.as_slice() == other.as_slice()
    }
}

impl Eq for Name {}

impl Hash for Name {
    fn hash<H: Hasher>(&self, state: &mut H) {
        self.as_slice().hash(state);
    }
}

impl Borrow<[u8]> for Name {
    fn borrow(&self) -> &[u8] {
        self.as_slice()
    }
}
