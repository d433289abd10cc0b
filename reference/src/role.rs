//! Who makes a call at the desk.

use crate::replies::Refusal;

/// A role. Each may do what the one before it may, and more.
#[derive(Debug, Clone, Copy, PartialEq, Eq, PartialOrd, Ord)]
pub enum Role {
    /// Gets the heard byte.
    Viewer,
    /// Gets the result record, too.
    Fitter,
    /// Loads, runs, begins rounds and sets shares, too.
    Operator,
}

impl Role {
    /// The role that a number stands for. A host may hand over any of 32 bits, and most are none.
    pub fn of(number: u32) -> Option<Role> {
        match number {
            0 => Some(Role::Viewer),
            1 => Some(Role::Fitter),
            2 => Some(Role::Operator),
            _ => None,
        }
    }

    /// Test 15, of a call that is allowed from this role on, and the role that was handed over.
    pub(crate) fn test(self, number: u32) -> Result<Role, Refusal> {
        let role = Role::of(number).filter(|role| *role >= self);
        role.ok_or(Refusal::Role)
    }
}

#[cfg(test)]
mod tests {
    use super::*;

    const ALL: [Role; 3] = [Role::Viewer, Role::Fitter, Role::Operator];

    #[test]
    fn each_role_may_do_what_those_before_it_may() {
        for (number, role) in ALL.into_iter().enumerate() {
            for (needed, from) in ALL.into_iter().enumerate() {
                let due = (number >= needed).then_some(role);
                assert_eq!(from.test(number as u32), due.ok_or(Refusal::Role));
            }
        }
    }

    #[test]
    fn no_other_number_is_a_role() {
        let powers = (2..32).map(|bit| 1 << bit);
        let around = powers.flat_map(|power| (0..3).map(move |low| power + low));
        for number in around.chain([3, 255, u32::MAX - 1, u32::MAX]) {
            assert_eq!(Role::of(number), None, "{number}");
            for from in ALL {
                assert_eq!(from.test(number), Err(Refusal::Role), "{number}");
            }
        }
    }
}
