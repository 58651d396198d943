//! The limits of the ring, its groups and its connections: those of the proved program.

pub const MOST_NODES: u8 = 8;
pub const MOST_BURST: usize = 8;
pub const MOST_REQUESTS: usize = 32;
pub const WINDOW: u32 = 64;
pub const MOST_WAITING: usize = 256;
pub const MOST_MESSAGE: usize = 8_192;
pub const MOST_NAME: usize = 128;
pub const MOST_MEMBERS: usize = 128;
pub const MOST_RULES: usize = 64;
pub const MOST_CONNECTIONS: usize = 65_535;
pub const MOST_PLACES: u32 = 1_048_576;
pub const MOST_HOPS: u64 = 1 << 62;
