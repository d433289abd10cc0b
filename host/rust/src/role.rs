//! For whom a call of the desk is made.

/// For whom a call of the [`Desk`](crate::Desk) is made. The host says so in each call, and is
/// believed.
///
/// | Call | Viewer | Fitter | Operator |
/// |---|---|---|---|
/// | [`heard`](crate::Desk::heard) | yes | yes | yes |
/// | [`fetch`](crate::Desk::fetch) | no | yes, and brings nothing in | yes |
/// | [`hand_in`](crate::Desk::hand_in), [`run`](crate::Desk::run) | no | no | yes |
/// | [`begin`](crate::Desk::begin), [`set_shares`](crate::Desk::set_shares) | no | no | yes |
///
/// What is not allowed is refused with [`Refusal::NotAllowed`](crate::Refusal::NotAllowed).
///
/// ```
/// use hubqr::Role;
///
/// assert_eq!([Role::Viewer, Role::Fitter, Role::Operator].map(Role::number), [0, 1, 2]);
/// ```
#[derive(Clone, Copy, Debug, PartialEq, Eq, Hash)]
#[repr(u32)]
pub enum Role {
    /// Number 0: gets the heard bytes and nothing else.
    Viewer = 0,
    /// Number 1: gets the result records too, and changes nothing: a matrix that waits goes on
    /// waiting.
    Fitter = 1,
    /// Number 2: may make every call, and is the only one who changes a desk or an area.
    Operator = 2,
}

impl Role {
    /// The number that stands for this role in C.
    pub const fn number(self) -> u32 {
        self as u32
    }
}
