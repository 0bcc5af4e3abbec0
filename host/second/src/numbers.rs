//! The numbers of 01's table "Faults and refusals" and the sizes of its section
//! "Memories and state", each under one name.

/// Address at or past the program's end.
pub const PAST_END: u32 = 1;
/// Illegal first byte, flags or shift byte.
pub const ILLEGAL: u32 = 2;
/// Operands cut by the program's end.
pub const CUT: u32 = 3;
/// Fewer values than are taken.
pub const TOO_FEW: u32 = 4;
/// Depth less taken plus pushed exceeds the cells.
pub const TOO_MANY: u32 = 5;
/// Data range.
pub const DATA_RANGE: u32 = 6;
/// Program range in pcopy.
pub const PROGRAM_RANGE: u32 = 7;
/// No such function.
pub const NO_FUNCTION: u32 = 8;
/// The verifier's refusal of the codes whose way the program does not tell.
pub const NOT_VERIFIABLE: u32 = 9;
/// The verifier's refusal of an address met at two depths.
pub const TWO_DEPTHS: u32 = 10;
/// Program over size.
pub const PROGRAM_SIZE: u32 = 20;
/// Data over size.
pub const DATA_SIZE: u32 = 21;
/// Cells over size.
pub const CELLS_SIZE: u32 = 22;
/// Depth map not as long as the program.
pub const MAP_LENGTH: u32 = 23;
/// State deeper than the stack.
pub const TOO_DEEP: u32 = 24;
/// Output longer than the room lent.
pub const ROOM: u32 = 25;
/// The encoder's refusal of an instruction that has no bytes.
pub const NOT_ENCODABLE: u32 = 26;

/// Pack: contents cut, or more than 64 entries; for the writer also lists of
/// unlike length.
pub const CONTENTS: u32 = 30;
/// Pack too long.
pub const PACK_SIZE: u32 = 31;
/// Pack: tag not above the one before.
pub const TAG_ORDER: u32 = 32;
/// Pack: wrong offset.
pub const OFFSET: u32 = 33;
/// Pack: bodies don't end at the pack's end.
pub const PACK_END: u32 = 34;
/// Pack: cells or length of an entry over size.
pub const ENTRY_SIZE: u32 = 35;
/// Tag absent.
pub const NO_TAG: u32 = 36;
/// A chunk or a second close after the close (request No. 1).
pub const AFTER_CLOSE: u32 = 37;

/// The most bytes a program may have.
pub const PROGRAM_BYTES: usize = 16_384;
/// The most bytes data memory may have.
pub const DATA_BYTES: usize = 65_535;
/// The most cells a stack may have.
pub const STACK_CELLS: usize = 1_024;

/// The most bytes a pack may have.
pub const PACK_BYTES: usize = 24_576;
/// The most entries a pack may have.
pub const PACK_ENTRIES: usize = 64;

/// What the depth map holds where no path meets the address.
pub const UNMET: u16 = 65_535;
