//! The five traps of 01's list "Traps", four of 02, A2, and eight of 02, A5, as switches of
//! the rules.

/// A fault to put into the rules; `None` leaves them right.
#[derive(Clone, Copy, Debug, PartialEq, Eq)]
pub enum Trap {
    None,
    /// Rules 6 to 9 run on a year that rule 4 has not passed (rule 4 is left out of
    /// the round), so that a spare below 0 slips by the test for 0.
    SpareBelowZero,
    /// A course taken in rules 6 to 9 charges only the lowest of the other terms
    /// that list it.
    ChargeOneTerm,
    /// Rule 3 reads p once for the term, before any of its courses is fixed.
    StaleP,
    /// Rule 7 stops at the first skipped course.
    StopAtSkip,
    /// Rule 11 rounds its quotient down.
    RoundDown,
    /// Rule 11 does not try c/2, unless it is a size.
    HalfLeftOut,
    /// Rule 11 does not try the terms' sizes, unless a course has the same; they still
    /// count in the sums.
    TermSizesLeftOut,
    /// In rule 11, at the threshold t a size equal to t counts 0: "at most t" for
    /// "below t".
    OwnSizeCountsNothing,
    /// Rule 11 tries sizes above c/2 too, up to c.
    SizesAboveHalf,
    /// In rule 12, k + k' + 1 is to be below the size of the set: "less than" for "at
    /// most".
    SizeNotReached,
    /// In rule 12, the k + 1 lightest are those of the whole set, the k' not set aside.
    LightestOfAll,
    /// In rule 12's test for a strike, b is lowered by w and a is not.
    ANotLowered,
    /// In rule 12, the rest still has the course in it.
    RestWithCourse,
    /// Rule 12 tests whether to fix a course before whether to strike it.
    FixBeforeStrike,
    /// Rule 12 reads p once for the term, before any of its courses is fixed.
    RangeByOldP,
    /// Rule 12 runs behind rule 11.
    AfterRule11,
    /// Rule 12 tests whether it fires on all open courses alone: of the courses, it
    /// strikes those that exceed b.
    NoTestOfTheRest,
}

/// The traps, in the order of their numbers: 1 to 5 are those of 01, in its order, 6 to 9
/// those of A2, 10 to 17 those of A5.
pub const TRAPS: [Trap; 17] = [
    Trap::SpareBelowZero,
    Trap::ChargeOneTerm,
    Trap::StaleP,
    Trap::StopAtSkip,
    Trap::RoundDown,
    Trap::HalfLeftOut,
    Trap::TermSizesLeftOut,
    Trap::OwnSizeCountsNothing,
    Trap::SizesAboveHalf,
    Trap::SizeNotReached,
    Trap::LightestOfAll,
    Trap::ANotLowered,
    Trap::RestWithCourse,
    Trap::FixBeforeStrike,
    Trap::RangeByOldP,
    Trap::AfterRule11,
    Trap::NoTestOfTheRest,
];

/// The traps of A2, which are about the t that rule 11 tries.
pub const TRAPS_OF_A2: [Trap; 4] =
    [Trap::HalfLeftOut, Trap::TermSizesLeftOut, Trap::OwnSizeCountsNothing, Trap::SizesAboveHalf];

/// The traps of A5, which are about rule 12.
pub const TRAPS_OF_A5: [Trap; 8] = [
    Trap::SizeNotReached,
    Trap::LightestOfAll,
    Trap::ANotLowered,
    Trap::RestWithCourse,
    Trap::FixBeforeStrike,
    Trap::RangeByOldP,
    Trap::AfterRule11,
    Trap::NoTestOfTheRest,
];
