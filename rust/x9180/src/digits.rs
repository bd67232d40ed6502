//! Numbers written in digits, as fields hold them. Every module but `character_set` may import this one, which imports that one alone.

use crate::character_set::CharacterSet;

/// The number in a run of digits of the set; `None` for anything else, and for more than 19 digits.
pub(crate) fn number_in(set: CharacterSet, digits: &[u8]) -> Option<u64> {
    if digits.is_empty() || digits.len() > 19 {
        return None;
    }
    digits.iter().try_fold(0u64, |number, byte| number.checked_mul(10)?.checked_add(set.digit(*byte)?))
}

/// The ninth digit that goes with eight by the ABA rule: three times digits 1, 4, 7, plus seven times digits 2, 5, 8, plus digits 3, 6, 9 is a
/// multiple of 10. `None` unless there are eight digits.
pub(crate) fn check_digit(set: CharacterSet, eight: &[u8]) -> Option<u64> {
    let digits: Vec<u64> = eight.iter().map(|byte| set.digit(*byte)).collect::<Option<_>>()?;
    let weighed = digits.iter().zip([3, 7, 1, 3, 7, 1, 3, 7]).map(|(digit, weight)| weight * digit);
    (digits.len() == 8).then(|| (10 - weighed.sum::<u64>() % 10) % 10)
}
