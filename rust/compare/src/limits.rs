//! How much may be, as the papers say: apart from both desks.

/// The longest UFO packet.
pub const UFO: usize = 1472;

/// The longest MEMX-UDP packet.
pub const MEMX: usize = 8972;

/// The longest Soup packet.
pub const SOUP: usize = 4098;

/// The longest MEMX-TCP packet.
pub const TCP: usize = 65_538;

/// How many bytes a slot of the held area has.
pub const SLOT: usize = 1472;

/// How many bytes an area has at least.
pub const AREA: usize = 32 * SLOT;

/// The longest message that is held.
pub const LONGEST: usize = SLOT - 2;

/// Room for a UFO packet and all held messages.
pub const UFO_ROOM: usize = UFO + 31 * SLOT;

/// Room for a MEMX-UDP packet and all held messages.
pub const MEMX_ROOM: usize = MEMX + 31 * SLOT;
