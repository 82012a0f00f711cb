//! Where a point's value came from.

use std::fmt;

/// The origins, each with its number. Readings up to the evaluation's stamp count, and one of 0 is a reading; an earlier
/// week's reading is that of the quarter hour 7, 14, 21 or 28 days before that starts at the same time by the wall clock:
/// the first of the two where clocks went back on that day and the time came twice; there is none where they went forward
/// and the time was left out.
#[derive(Clone, Copy, PartialEq, Eq, Debug)]
pub enum Origin {
    /// The quarter hour has a reading, which is the value, whatever the point's status.
    Measured = 0,
    /// The quarter hour has no reading; the value is the reading of one earlier week.
    MeanOfOneWeek = 1,
    /// The quarter hour has no reading; the value is the mean of the readings of two earlier weeks.
    MeanOfTwoWeeks = 2,
    /// The quarter hour has no reading; the value is the mean of the readings of three earlier weeks.
    MeanOfThreeWeeks = 3,
    /// The quarter hour has no reading; the value is the mean of the readings of four earlier weeks.
    MeanOfFourWeeks = 4,
    /// The quarter hour has no reading, and the point's status is above 0; the value is zero, whatever the earlier weeks
    /// have.
    ZeroByStatus = 5,
    /// The quarter hour has no reading, the point's status is 0, and no earlier week has a reading; the value is zero.
    ZeroForLack = 6,
}

impl Origin {
    /// All origins, in the order of their numbers.
    pub const ALL: [Origin; 7] = [
        Origin::Measured,
        Origin::MeanOfOneWeek,
        Origin::MeanOfTwoWeeks,
        Origin::MeanOfThreeWeeks,
        Origin::MeanOfFourWeeks,
        Origin::ZeroByStatus,
        Origin::ZeroForLack,
    ];

    /// The number of the origin.
    pub fn number(self) -> u64 {
        self as u64
    }

    /// The origin of a number, if there is one.
    pub fn from_number(number: u64) -> Option<Origin> {
        Origin::ALL.into_iter().find(|origin| origin.number() == number)
    }

    /// How many earlier weeks' readings stand in for a missing one, 0 where none does.
    pub fn weeks(self) -> u64 {
        match self {
            Origin::MeanOfOneWeek => 1,
            Origin::MeanOfTwoWeeks => 2,
            Origin::MeanOfThreeWeeks => 3,
            Origin::MeanOfFourWeeks => 4,
            Origin::Measured | Origin::ZeroByStatus | Origin::ZeroForLack => 0,
        }
    }
}

impl fmt::Display for Origin {
    fn fmt(&self, out: &mut fmt::Formatter) -> fmt::Result {
        out.pad(match self {
            Origin::Measured => "measured: the quarter hour has a reading",
            Origin::MeanOfOneWeek => "no reading: the reading of one earlier week",
            Origin::MeanOfTwoWeeks => "no reading: the mean of the readings of two earlier weeks",
            Origin::MeanOfThreeWeeks => "no reading: the mean of the readings of three earlier weeks",
            Origin::MeanOfFourWeeks => "no reading: the mean of the readings of four earlier weeks",
            Origin::ZeroByStatus => "no reading: zero, since the point is not active",
            Origin::ZeroForLack => "no reading: zero, since none of the four earlier weeks has one",
        })
    }
}

#[cfg(test)]
mod tests {
    use super::Origin;

    #[test]
    fn origins_stand_in_the_order_of_their_numbers() {
        assert!(Origin::ALL.into_iter().map(Origin::number).eq(0..=6));
    }

    #[test]
    fn numbers_from_0_to_6_are_origins_and_no_others() {
        for origin in Origin::ALL {
            assert_eq!(Origin::from_number(origin.number()), Some(origin));
        }
        assert_eq!(Origin::from_number(7), None);
        assert_eq!(Origin::from_number(u64::MAX), None);
    }

    #[test]
    fn a_mean_has_as_many_weeks_as_its_number() {
        let weeks = Origin::ALL.map(Origin::weeks);
        assert_eq!(weeks, [0, 1, 2, 3, 4, 0, 0]);
    }
}
