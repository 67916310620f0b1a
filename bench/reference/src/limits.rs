//! What a policy, a line and a founding file may hold at most.

pub const NAME_BYTES: usize = 64;
pub const LINE_BYTES: usize = 65_536;
pub const FOUNDING_BYTES: usize = 1_048_576;

pub const USERS: usize = 4_096;
pub const ROLES: usize = 1_024;
pub const SESSIONS: usize = 8_192;
/// Separation sets of one kind.
pub const SETS: usize = 256;

pub const OPERATIONS: usize = 256;
pub const OBJECTS: usize = 4_096;
pub const PERMISSIONS: usize = 16_384;

pub const CLOCK: u64 = 9_007_199_254_740_991;
pub const SENT: u32 = 65_536;

pub const MEMBERS: u32 = 8;

/// Commands of one message.
pub const BATCH: usize = 64;
/// How many bytes a line of one member and a message's text have at most.
#[derive(Clone, Copy)]
pub struct Longest {
    pub line: usize,
    pub message: usize,
}

/// Of a message so much is sent that a line can bring it to another member.
pub const BY_LINES: Longest = Longest { line: LINE_BYTES, message: 65_485 };
/// A call's texts have no line round them; here they stand in one that is long enough.
pub const BY_CALLS: Longest = Longest { line: 4_194_304, message: 1_048_576 };
