//! The numbers by which calls are refused.

/// A text is not in its columns, or a line is missing or extra.
pub const NOT_IN_COLUMNS: u64 = 1;
/// A registration code is false.
pub const CODE_FALSE: u64 = 2;
/// The count of points or of named producers is outside its limits.
pub const COUNT_OUTSIDE: u64 = 3;
/// A code stands twice in the group.
pub const CODE_TWICE: u64 = 4;
/// A status is above 3 or the iteration above 1.
pub const STATUS_OR_ITERATION_ABOVE: u64 = 5;
/// A producer number is unknown or named twice, or a key is outside its limits.
pub const PRODUCER_OR_KEY_WRONG: u64 = 6;
/// The keys of one producer sum to more than the whole.
pub const KEYS_ABOVE: u64 = 7;
/// A code belongs to no point of the group.
pub const CODE_NOT_IN_GROUP: u64 = 8;
/// A date, day or quarter does not exist.
pub const NO_SUCH_DAY: u64 = 9;
/// A value has the wrong sign or size.
pub const VALUE_WRONG: u64 = 10;
/// A day is cleared already, or needs readings of cleared days.
pub const DAY_CLEARED: u64 = 11;
/// A stamp is outside the span from the kept stamp to the last one.
pub const STAMP_OUTSIDE: u64 = 12;
/// The clock is above its limit, or the stamps are used up.
pub const CLOCK_OUTSIDE: u64 = 13;
/// The journal has no room for a new entry.
pub const JOURNAL_FULL: u64 = 14;
/// The registration, record or journal is damaged.
pub const DAMAGED: u64 = 15;
/// The list or buffer for the result is too short.
pub const TOO_SHORT: u64 = 16;
