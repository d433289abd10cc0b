//! The engine's refusals, in the words of the host crate.
use hubqr::Refusal;

/// That the engine refuses a record, by which number and why.
pub fn refused_with(refusal: Refusal) -> String {
    let number = refusal.number();
    format!("the engine refuses it with number {number}: {refusal}")
}
