//! How often each number was answered, in words.

use std::collections::BTreeMap;

/// What follows the count of accepted calls.
pub fn listed(refusals: &BTreeMap<u8, u64>) -> String {
    let refusals = refusals.iter();
    refusals
        .map(|(number, count)| format!(", {count} refused with {number}"))
        .collect()
}

/// Fails the test unless these are the numbers that were answered.
pub fn assert_numbers(refusals: &BTreeMap<u8, u64>, numbers: &[u8]) {
    let seen: Vec<u8> = refusals.keys().copied().collect();
    assert_eq!(seen, numbers, "the numbers answered, and those due");
}
