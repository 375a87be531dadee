//! The limits of the rules, each number once.

/// Bytes of a text.
pub const MOST_TEXT: usize = 16_384;
/// Bytes that each work buffer needs.
pub const WORK: usize = 65_280;
/// Bytes that the byte list needs; also the number of variables that a text may have.
pub const MOST_VARIABLES: usize = 16;
/// Terms that stand together with the raw size of the next place.
pub const MOST_TERMS: usize = 3_840;
/// Maps of a text.
pub const MOST_MAPS: usize = 8;
/// Inputs of a text.
pub const MOST_INPUTS: usize = 4;
/// Statements of both blocks together.
pub const MOST_STATEMENTS: usize = 256;
/// Operations of a formula inside each other.
pub const MOST_DEPTH: usize = 8;
/// Shares of a value, and names on the output line.
pub const MOST_SHARES: usize = 8;
/// Characters of a name before its dot part.
pub const MOST_NAME: usize = 12;
