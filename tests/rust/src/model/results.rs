//! The result of a step that is taken (RULES 4.2). A refused one has its refusal.

/// A taken step, whatever its code; of a step 8, its message joined the inbox.
pub const DONE: u8 = 0;

/// A taken step 8 whose message is held (RULES 5.8). It is no refusal.
pub const HELD: u8 = 100;

/// Whether a step with this result was taken: 0 or 100 (RULES 1.7).
pub fn taken(result: u8) -> bool {
    matches!(result, DONE | HELD)
}

#[cfg(test)]
mod tests {
    use super::*;

    /// Refusals of a step are 6 to 35, and no other number is a result.
    #[test]
    fn two_numbers_are_taken() {
        let taken: Vec<u8> = (0..=255).filter(|&result| taken(result)).collect();
        assert_eq!(taken, [0, 100]);
    }
}
