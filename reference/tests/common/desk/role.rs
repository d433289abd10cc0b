//! Roles as a host hands them over: three numbers, and all others.

use super::Call;

pub const VIEWER: u32 = 0;
pub const FITTER: u32 = 1;
pub const OPERATOR: u32 = 2;

/// Numbers that are no role. The low bits of most are those of one.
pub const UNKNOWN: [u32; 26] = [
    3,
    4,
    5,
    7,
    8,
    128,
    254,
    255,
    256,
    257,
    258,
    259,
    65_535,
    65_536,
    65_537,
    65_538,
    1 << 24,
    (1 << 24) + 1,
    (1 << 24) + 2,
    (1 << 31) - 1,
    1 << 31,
    (1 << 31) + 1,
    (1 << 31) + 2,
    u32::MAX - 2,
    u32::MAX - 1,
    u32::MAX,
];

/// Every role, and the numbers that are none.
pub fn all_roles() -> impl Iterator<Item = u32> + Clone {
    [VIEWER, FITTER, OPERATOR].into_iter().chain(UNKNOWN)
}

pub fn name(role: u32) -> &'static str {
    match role {
        VIEWER => "viewer",
        FITTER => "fitter",
        OPERATOR => "operator",
        _ => "unknown role",
    }
}

impl Call {
    /// Whether a role may make the call: all three get the heard byte, two the result record, and the
    /// operator alone does the rest.
    pub fn is_allowed_to(&self, role: u32) -> bool {
        let roles: &[u32] = match self {
            Call::Heard { .. } => &[VIEWER, FITTER, OPERATOR],
            Call::Fetch { .. } => &[FITTER, OPERATOR],
            Call::HandIn { .. } | Call::Run { .. } => &[OPERATOR],
            Call::Begin | Call::SetShares { .. } => &[OPERATOR],
        };
        roles.contains(&role)
    }
}
