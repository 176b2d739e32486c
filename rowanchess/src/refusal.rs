//! Why a call is refused.

use std::error::Error;
use std::fmt;

/// Why a call is refused, by document 01's codes and, for 15, document 02's. A refused call has changed nothing.
#[derive(Clone, Copy, Debug, PartialEq, Eq, Hash)]
#[repr(u8)]
pub enum Refusal {
    /// 1: an account or an owner is not below the owner limit.
    AccountOutOfRange = 1,
    /// 2: an order's number is above the last number.
    ForeignOrder = 2,
    /// 3: an account with this number exists already.
    AccountExists = 3,
    /// 4: the number is not one in flight or not the next, or a session is connected during a replay.
    Sequence = 4,
    /// 5: a table or a list has no room.
    Full = 5,
    /// 6: the lent list is too short. The buffers of [`Exchange`](crate::Exchange) are long enough, so its methods do not meet it.
    OutputTooShort = 6,
    /// 7: a hold total or a level's quantity would not fit its type.
    OutsideType = 7,
    /// 8: the call does not agree with what the gateway has: a repeated number, an event that its orders cannot have, a listing that is not the
    /// live orders.
    Inconsistent = 8,
    /// 9: the session number is 64 or more, or in use.
    Session = 9,
    /// 10: commands wait or have not all been answered, so there is no checkpoint.
    NotQuiet = 10,
    /// 11: the bytes are no checkpoint.
    Malformed = 11,
    /// 12: live orders name the account that would join.
    LiveOrders = 12,
    /// 15: the booking fee is below 0.
    NegativeFee = 15,
}

impl Refusal {
    const ALL: [Refusal; 13] = [
        Refusal::AccountOutOfRange,
        Refusal::ForeignOrder,
        Refusal::AccountExists,
        Refusal::Sequence,
        Refusal::Full,
        Refusal::OutputTooShort,
        Refusal::OutsideType,
        Refusal::Inconsistent,
        Refusal::Session,
        Refusal::NotQuiet,
        Refusal::Malformed,
        Refusal::LiveOrders,
        Refusal::NegativeFee,
    ];

    /// Its code: 1 to 12, and 15.
    ///
    /// ```
    /// assert_eq!(rowanchess::Refusal::NotQuiet.code(), 10);
    /// ```
    pub fn code(self) -> u8 {
        self as u8
    }

    /// The refusal of a code: 1 to 12, and 15. None for 0, which is no refusal, and for any other.
    ///
    /// ```
    /// use rowanchess::Refusal;
    ///
    /// assert_eq!(Refusal::of(10), Some(Refusal::NotQuiet));
    /// assert_eq!(Refusal::of(15), Some(Refusal::NegativeFee));
    /// assert_eq!(Refusal::of(0), None);
    /// ```
    pub fn of(code: u64) -> Option<Refusal> {
        Refusal::ALL.into_iter().find(|refusal| u64::from(refusal.code()) == code)
    }
}

impl fmt::Display for Refusal {
    fn fmt(&self, f: &mut fmt::Formatter<'_>) -> fmt::Result {
        f.write_str(match self {
            Refusal::AccountOutOfRange => "an account is not below the owner limit",
            Refusal::ForeignOrder => "an order is above the last number",
            Refusal::AccountExists => "the account exists already",
            Refusal::Sequence => "the number is out of sequence",
            Refusal::Full => "a table is full",
            Refusal::OutputTooShort => "the output is too short",
            Refusal::OutsideType => "a total does not fit its type",
            Refusal::Inconsistent => "the call does not agree with the gateway",
            Refusal::Session => "the session number is out of range or in use",
            Refusal::NotQuiet => "commands have not all been answered",
            Refusal::Malformed => "the bytes are malformed",
            Refusal::LiveOrders => "the account has live orders",
            Refusal::NegativeFee => "the fee is below 0",
        })
    }
}

impl Error for Refusal {}
