//! Capabilities: issued under an interface's master secret, and narrowed without it (document 01, "Capability").

use core::fmt;

use crate::answer::Made;
use crate::length;
use crate::raw;
use crate::refusal::{Refused, called};
use crate::secret::Secret;

/// A capability: the ID of an interface's entry, four words, and the secret that vouches for them. Whoever holds its bytes holds its rights.
///
/// A command is permitted if its bit is 1 in the entry's present word and in all four words. Bit c, of value 2^c, stands for command c.
///
/// `Debug` leaves the secret out. A dropped capability is wiped; bytes that a move left behind aren't.
#[derive(Clone, PartialEq, Eq)]
pub struct Capability(Secret<{ length::CAPABILITY }>);

impl Capability {
    /// Issues a capability for the entry `id` under its interface's master secret: four all-ones words, which take nothing away.
    ///
    /// Refusal: [`NoEntry`](crate::Refusal::NoEntry) for ID 0.
    ///
    /// ```
    /// # fn main() -> Result<(), Box<dyn std::error::Error>> {
    /// use deebqoshaan::{Capability, Refusal};
    ///
    /// let made = Capability::issue(b"EXAMPLE SECRET 1", 2)?;
    /// assert_eq!((made.capability.id(), made.capability.words()), (2, [u64::MAX; 4]));
    /// assert_eq!(made.blocks, 1);
    ///
    /// assert_eq!(Capability::issue(b"EXAMPLE SECRET 1", 0).unwrap_err().refusal, Refusal::NoEntry);
    /// # Ok(())
    /// # }
    /// ```
    pub fn issue(master: &[u8; length::SECRET], id: u16) -> Result<Made, Refused> {
        let mut capability = Capability(Secret::zeros());
        let room = &mut capability.0.0;
        // SAFETY: see `raw`; each pointer comes from a reference, and what is written is borrowed by this call alone.
        let blocks = called(|blocks| unsafe { raw::dq_issue(master.as_ptr(), master.len(), id, room.as_mut_ptr(), room.len(), blocks) })?;
        Ok(Made { capability, blocks })
    }

    /// Narrows a capability by a word, without the master secret: the new one permits what both permit. It can be done four times.
    ///
    /// Refusals, in order: [`AllOnes`](crate::Refusal::AllOnes), [`NoPlaceLeft`](crate::Refusal::NoPlaceLeft).
    ///
    /// ```
    /// # fn main() -> Result<(), Box<dyn std::error::Error>> {
    /// use deebqoshaan::Capability;
    ///
    /// let office = Capability::issue(b"EXAMPLE SECRET 3", 1)?.capability;
    /// let labeller = office.narrow(1 << 0 | 1 << 3 | 1 << 4)?.capability; // read, print, set the date
    /// let filler = labeller.narrow(1 << 0 | 1 << 3)?.capability; // read and print
    /// assert_eq!(filler.words(), [25, 9, u64::MAX, u64::MAX]);
    /// # Ok(())
    /// # }
    /// ```
    pub fn narrow(&self, word: u64) -> Result<Made, Refused> {
        let mut capability = Capability(Secret::zeros());
        let (held, room) = (self.as_bytes(), &mut capability.0.0);
        // SAFETY: as above.
        let blocks = called(|blocks| unsafe { raw::dq_narrow(held.as_ptr(), held.len(), word, room.as_mut_ptr(), room.len(), blocks) })?;
        Ok(Made { capability, blocks })
    }

    /// The capability of these bytes, as its holder handed it on. Nothing is judged here: the gateway does that.
    ///
    /// ```
    /// # fn main() -> Result<(), Box<dyn std::error::Error>> {
    /// use deebqoshaan::Capability;
    ///
    /// let issued = Capability::issue(b"EXAMPLE SECRET 1", 2)?.capability;
    /// assert_eq!(Capability::from_bytes(*issued.as_bytes()), issued);
    /// # Ok(())
    /// # }
    /// ```
    pub const fn from_bytes(bytes: [u8; length::CAPABILITY]) -> Capability {
        Capability(Secret(bytes))
    }

    /// Its 50 bytes, to hand it on: ID (2), four words (8 each), secret (16). They are a secret.
    ///
    /// ```
    /// # fn main() -> Result<(), Box<dyn std::error::Error>> {
    /// use deebqoshaan::Capability;
    ///
    /// let narrowed = Capability::issue(b"EXAMPLE SECRET 1", 2)?.capability.narrow(9)?.capability;
    /// assert_eq!(narrowed.as_bytes()[..10], [2, 0, 9, 0, 0, 0, 0, 0, 0, 0]);
    /// # Ok(())
    /// # }
    /// ```
    pub const fn as_bytes(&self) -> &[u8; length::CAPABILITY] {
        &self.0.0
    }

    /// Its ID: the number of the interface's entry, counted from 1.
    ///
    /// ```
    /// # fn main() -> Result<(), Box<dyn std::error::Error>> {
    /// assert_eq!(deebqoshaan::Capability::issue(b"EXAMPLE SECRET 1", 2)?.capability.id(), 2);
    /// # Ok(())
    /// # }
    /// ```
    pub fn id(&self) -> u16 {
        let [low, high, ..] = *self.as_bytes();
        u16::from_le_bytes([low, high])
    }

    /// Its four words; one that takes nothing away is all ones.
    ///
    /// ```
    /// # fn main() -> Result<(), Box<dyn std::error::Error>> {
    /// let narrowed = deebqoshaan::Capability::issue(b"EXAMPLE SECRET 1", 2)?.capability.narrow(1)?.capability;
    /// assert_eq!(narrowed.words(), [1, u64::MAX, u64::MAX, u64::MAX]);
    /// # Ok(())
    /// # }
    /// ```
    pub fn words(&self) -> [u64; 4] {
        core::array::from_fn(|i| u64::from_le_bytes(core::array::from_fn(|k| self.as_bytes()[2 + 8 * i + k])))
    }
}

impl fmt::Debug for Capability {
    fn fmt(&self, f: &mut fmt::Formatter<'_>) -> fmt::Result {
        f.debug_struct("Capability").field("id", &self.id()).field("words", &self.words()).finish_non_exhaustive()
    }
}
