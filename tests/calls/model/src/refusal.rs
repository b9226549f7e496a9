//! "Numbers of refusal": each number of document 01 under a name.

/// The number of an accepted call.
pub const ACCEPTED: u8 = 0;

/// Packet below 96 bytes (reply: 32).
pub const PACKET_TOO_SHORT: u8 = 1;
/// Packet above 16,480 bytes (reply: 16,416).
pub const PACKET_TOO_LONG: u8 = 2;
/// Bytes 2, 3 not zero.
pub const OPEN_ZEROS: u8 = 3;
/// Client ID or host number 0 or above the host count.
pub const NO_SUCH_HOST: u8 = 4;
/// Vector byte 0 is 128 or more (reply: vector not that of the expected number).
pub const VECTOR: u8 = 5;
/// Host not open.
pub const NOT_OPEN: u8 = 6;
/// Lent room too short for what acceptance writes.
pub const ROOM_TOO_SHORT: u8 = 7;
/// Tag wrong.
pub const TAG_WRONG: u8 = 8;
/// Inner client ID differs.
pub const INNER_CLIENT: u8 = 9;
/// Inner zeros not zero.
pub const INNER_ZEROS: u8 = 10;
/// Payload length field isn't what the packet carries.
pub const PAYLOAD_LENGTH: u8 = 11;
/// Number not fresh (reply: not the expected one; sealing: 0).
pub const SEQUENCE: u8 = 12;
/// Group not 0 and not the host's.
pub const GROUP: u8 = 13;
/// No such interface.
pub const NO_SUCH_INTERFACE: u8 = 14;
/// No such entry.
pub const NO_SUCH_ENTRY: u8 = 15;
/// Entry's group not 0 and not the packet's.
pub const ENTRY_GROUP: u8 = 16;
/// Command ID not below the command count.
pub const NO_SUCH_COMMAND: u8 = 17;
/// Not permitted.
pub const NOT_PERMITTED: u8 = 18;
/// Secret wrong.
pub const SECRET_WRONG: u8 = 19;

/// Request below 21 or above 276 bytes.
pub const REQUEST_SIZE: u8 = 20;
/// Version not 1.0.
pub const VERSION: u8 = 21;
/// Name length isn't the length less 20.
pub const NAME_LENGTH: u8 = 22;
/// No such host name.
pub const NO_SUCH_NAME: u8 = 23;
/// Proof not 32 bytes.
pub const PROOF_SIZE: u8 = 25;
/// Host not waiting.
pub const NOT_WAITING: u8 = 26;
/// Challenge 2 differs.
pub const CHALLENGE_DIFFERS: u8 = 27;
/// A lent secret, key, vector, capability or fresh bytes of wrong length.
pub const LENT_LENGTH: u8 = 28;
/// No reply owed for that number.
pub const NO_REPLY_OWED: u8 = 29;
/// Payload above 16,384.
pub const PAYLOAD_TOO_LONG: u8 = 30;
/// No all-ones word left.
pub const NO_WORD_LEFT: u8 = 31;
/// Narrowing by an all-ones word.
pub const ALL_ONES_WORD: u8 = 32;
/// State not sound; first in every server call but load.
pub const NOT_SOUND: u8 = 39;

/// Book below 8 or above 12,232 bytes, or total not the length.
pub const BOOK_LENGTH: u8 = 40;
/// Book format.
pub const BOOK_FORMAT: u8 = 41;
/// Rows 0, above 40, or past the end.
pub const BOOK_ROWS: u8 = 42;
/// A row's kind, its order or its limit, or its id.
pub const BOOK_KIND_OR_ID: u8 = 43;
/// A row's start or length.
pub const BOOK_PLACE: u8 = 44;
/// A body's command count or entry count.
pub const BOOK_COUNTS: u8 = 45;
/// A permitted bit at or above the command count.
pub const BOOK_WORD: u8 = 46;
/// A bad letter in a name.
pub const BOOK_LETTER: u8 = 47;
/// A name used before in its kind.
pub const BOOK_NAME_USED: u8 = 48;
