//! What document 02 leaves to the original.

/// Request 101: contracts without `<` and `==`, remarks and head included.
pub fn free_of_both_signs(contract: &[u8]) -> bool {
    !contract.contains(&b'<') && !contract.windows(2).any(|w| w == b"==")
}
