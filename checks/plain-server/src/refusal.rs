//! Why a desk line is refused.

/// Each reason by its name in the reply.
#[derive(Clone, Copy, PartialEq, Eq, Debug)]
#[repr(u8)]
pub enum Refusal {
    BadLine = 1,
    BadSource,
    BadSourceId,
    BadStamp,
    BadExpires,
    BadService,
    BadUri,
    BadNumber,
    BadRegion,
    RegionMissing,
    TooLarge,
    BadKey,
    IdentityHeld,
    IdentityUnknown,
    NotNewer,
    KeyHeld,
    KeyUnchanged,
    Full,
    EditsSpent,
    /// Code 20 is want of memory, which ends this server.
    Withdrawn = 21,
    TracesFull,
}

impl Refusal {
    /// Its number.
    pub fn code(self) -> u8 {
        self as u8
    }
}

/// The reason, unless something is so.
pub fn unless(is_so: bool, refusal: Refusal) -> Result<(), Refusal> {
    if is_so {
        Ok(())
    } else {
        Err(refusal)
    }
}
