//! What a carrier is: the letter before it.
use crate::item::Sort;

#[derive(Clone, Copy, PartialEq, Eq, Hash, Debug)]
pub enum Kind {
    Definition,
    Contract,
    Theorem,
    Wrong,
    Run,
    None,
}

impl Kind {
    pub fn of(letter: char) -> Option<Kind> {
        Some(match letter {
            'D' => Kind::Definition,
            'C' => Kind::Contract,
            'T' => Kind::Theorem,
            'X' => Kind::Wrong,
            'R' => Kind::Run,
            'N' => Kind::None,
            _ => return None,
        })
    }

    pub fn letter(self) -> char {
        match self {
            Kind::Definition => 'D',
            Kind::Contract => 'C',
            Kind::Theorem => 'T',
            Kind::Wrong => 'X',
            Kind::Run => 'R',
            Kind::None => 'N',
        }
    }

    /// Whether something of this sort can be such a carrier.
    pub fn fits(self, sort: Sort) -> bool {
        match self {
            Kind::Definition => matches!(sort, Sort::Spec | Sort::Type | Sort::Constant),
            Kind::Contract => matches!(sort, Sort::Contract | Sort::Type | Sort::Constant),
            Kind::Theorem => matches!(sort, Sort::Spec | Sort::Proof),
            Kind::Wrong => sort == Sort::Wrong,
            Kind::Run => matches!(sort, Sort::Outside | Sort::Contract | Sort::Function),
            Kind::None => false,
        }
    }

    /// Where such a carrier stands, for a message.
    pub fn wants(self) -> &'static str {
        match self {
            Kind::Definition => "a definition in specs/, or a type or constant in src/",
            Kind::Contract => "a function with `ensures`, a type or a constant in src/",
            Kind::Theorem => "a law or definition in specs/ or proofs/",
            Kind::Wrong => "the name on a `wrong:` line in must-fail/",
            Kind::Run => "a function outside of specs/ and proofs/, or path:name",
            Kind::None => "no name",
        }
    }
}
