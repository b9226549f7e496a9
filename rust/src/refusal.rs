//! Document 01, "Numbers of refusal": the numbers under the names of `deebqoshaan.h`, and the answers that carry one.

use core::error::Error;
use core::fmt;

/// Declares [`Refusal`] from one table, so that a number, its name, its documentation and its words can't differ.
macro_rules! refusals {
    ($($name:ident = $number:literal, $words:literal;)*) => {
        /// Why a call was refused. Each has its number of document 01, and says in the document's words when it is given.
        ///
        /// Where a number means something else in another call, the words name that call in brackets. The names are those of `deebqoshaan.h`. More
        /// numbers may come with later documents: a `match` needs an arm for those.
        ///
        /// ```
        /// use deebqoshaan::Refusal;
        ///
        /// assert_eq!(Refusal::NotPermitted.number(), 18);
        /// assert_eq!(Refusal::NotPermitted.to_string(), "not permitted");
        /// assert_eq!(Refusal::from_number(18), Some(Refusal::NotPermitted));
        /// ```
        #[derive(Clone, Copy, Debug, PartialEq, Eq, PartialOrd, Ord, Hash)]
        #[non_exhaustive]
        #[repr(u8)]
        pub enum Refusal {
            $(#[doc = concat!($number, ": ", $words, ".")] $name = $number,)*
        }

        impl Refusal {
            /// Every refusal, in the order of the numbers.
            ///
            /// ```
            /// use deebqoshaan::Refusal;
            ///
            /// assert_eq!(Refusal::ALL.len(), 41);
            /// assert!(Refusal::ALL.is_sorted());
            /// ```
            pub const ALL: &'static [Refusal] = &[$(Refusal::$name),*];

            /// The refusal of that number, if there is one. 0 is acceptance, and some numbers aren't given.
            ///
            /// ```
            /// use deebqoshaan::Refusal;
            ///
            /// assert_eq!(Refusal::from_number(8), Some(Refusal::TagWrong));
            /// assert_eq!(Refusal::from_number(0), None);
            /// assert_eq!(Refusal::from_number(24), None);
            /// ```
            pub const fn from_number(number: u8) -> Option<Refusal> {
                match number {
                    $($number => Some(Refusal::$name),)*
                    _ => None,
                }
            }

            /// When document 01 gives this refusal. It is what `Display` writes.
            ///
            /// ```
            /// use deebqoshaan::Refusal;
            ///
            /// assert_eq!(Refusal::NotFresh.words(), "number not fresh (reply: not the expected one; sealing: 0)");
            /// ```
            pub const fn words(self) -> &'static str {
                match self {
                    $(Refusal::$name => $words,)*
                }
            }
        }
    };
}

refusals! {
    Below = 1, "packet below 96 bytes (reply: 32)";
    Above = 2, "packet above 16,480 bytes (reply: 16,416)";
    Zeros = 3, "bytes 2, 3 not zero";
    NoHost = 4, "client ID or host number 0 or above the host count";
    Vector = 5, "vector byte 0 is 128 or more (reply: vector not that of the expected number)";
    NotOpen = 6, "host not open";
    RoomShort = 7, "lent room too short for what acceptance writes (command: packet length less 96; opening a reply: less 32)";
    TagWrong = 8, "tag wrong";
    ClientDiffers = 9, "inner client ID differs";
    InnerZeros = 10, "inner zeros not zero";
    LengthField = 11, "payload length field isn't what the packet carries";
    NotFresh = 12, "number not fresh (reply: not the expected one; sealing: 0)";
    Group = 13, "group not 0 and not the host's";
    NoInterface = 14, "no such interface";
    NoEntry = 15, "no such entry (issuing: ID 0)";
    EntryGroup = 16, "entry's group not 0 and not the packet's";
    NoCommand = 17, "command ID not below the command count";
    NotPermitted = 18, "not permitted";
    SecretWrong = 19, "secret wrong";
    RequestLength = 20, "request below 21 or above 276 bytes";
    Version = 21, "version not 1.0";
    NameLength = 22, "name length isn't the length less 20";
    NoName = 23, "no such host name";
    ProofLength = 25, "proof not 32 bytes";
    NotWaiting = 26, "host not waiting";
    ChallengeDiffers = 27, "challenge 2 differs";
    LengthWrong = 28, "a lent secret, key, vector, capability or fresh bytes of wrong length";
    NotOwed = 29, "no reply owed for that number";
    PayloadAbove = 30, "payload above 16,384 bytes";
    NoPlaceLeft = 31, "no all-ones word left";
    AllOnes = 32, "narrowing by an all-ones word";
    Unsound = 39, "state not sound";
    Size = 40, "book below 8 or above 12,232 bytes, or total not the length";
    Format = 41, "format not 1";
    Rows = 42, "rows 0, above 40, or past the end";
    KindOrId = 43, "a row's kind, its order or its limit, or its id";
    StartOrLength = 44, "a row's start, or its length out of range, past the total, or the last row not ending there";
    Counts = 45, "command count, entry count, or entries that leave no name or one above 256";
    Permitted = 46, "a permitted bit at or above the command count";
    Letter = 47, "bad letter in a name";
    NameUsed = 48, "name used before in its kind";
}

impl Refusal {
    /// Its number in document 01, never 0.
    ///
    /// ```
    /// use deebqoshaan::Refusal;
    ///
    /// assert_eq!(Refusal::Unsound.number(), 39);
    /// ```
    pub const fn number(self) -> u8 {
        self as u8
    }
}

impl fmt::Display for Refusal {
    fn fmt(&self, f: &mut fmt::Formatter<'_>) -> fmt::Result {
        f.write_str(self.words())
    }
}

impl Error for Refusal {}

/// A refused call: the refusal, and how many AES blocks document 01 counts for it. It changed nothing, neither the state nor the lent room.
///
/// ```
/// use deebqoshaan::{Gateway, Refusal, Refused};
///
/// let refused = Gateway::empty().close(1).unwrap_err();
/// assert_eq!(refused, Refused { refusal: Refusal::NoHost, blocks: 0 });
/// assert_eq!(refused.to_string(), "refused 4: client ID or host number 0 or above the host count");
/// ```
#[derive(Clone, Copy, Debug, PartialEq, Eq, Hash)]
pub struct Refused {
    /// Which refusal: the first, in the order that document 01 sets for the call, whose condition held.
    pub refusal: Refusal,
    /// The AES blocks counted.
    pub blocks: usize,
}

impl fmt::Display for Refused {
    fn fmt(&self, f: &mut fmt::Formatter<'_>) -> fmt::Result {
        write!(f, "refused {}: {}", self.refusal.number(), self.refusal)
    }
}

impl Error for Refused {}

/// A refused book: the refusal of its first fault, and where the fault is. Loading counts no blocks.
///
/// ```
/// use deebqoshaan::{BookRefusal, Gateway, Refusal};
///
/// let refused = Gateway::load(b"not a book, nor near to one").unwrap_err();
/// assert_eq!(refused, BookRefusal { refusal: Refusal::Size, offset: 4 });
/// assert_eq!(refused.to_string(), "refused 40 at 4: book below 8 or above 12,232 bytes, or total not the length");
/// ```
#[derive(Clone, Copy, Debug, PartialEq, Eq, Hash)]
pub struct BookRefusal {
    /// Which refusal: 40 to 48.
    pub refusal: Refusal,
    /// The place of the fault, in bytes from the book's start.
    pub offset: usize,
}

impl fmt::Display for BookRefusal {
    fn fmt(&self, f: &mut fmt::Formatter<'_>) -> fmt::Result {
        write!(f, "refused {} at {}: {}", self.refusal.number(), self.offset, self.refusal)
    }
}

impl Error for BookRefusal {}

/// The refusal of a number that the archive answered, or none for 0.
pub(crate) fn refusal_of(number: u8) -> Option<Refusal> {
    if number == 0 {
        return None;
    }
    let known = Refusal::from_number(number);
    assert!(known.is_some(), "the archive answers {number}, which this crate doesn't know: they aren't of one source");
    known
}

/// Makes a call of the archive, which hands its count out by the pointer: the count if it was accepted.
pub(crate) fn called(call: impl FnOnce(*mut usize) -> u8) -> Result<usize, Refused> {
    let mut blocks = 0;
    let number = call(&mut blocks);
    match refusal_of(number) {
        None => Ok(blocks),
        Some(refusal) => Err(Refused { refusal, blocks }),
    }
}
