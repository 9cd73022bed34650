//! A line's accreditation word (document 02, F-7).

use crate::SCHEDULES;

/// The words of the empty and the full set of schedules. Schedule s, counted from 0, has bit s: document 02's bit s - 1 for schedules counted from 1.
const NO_SCHEDULE: u32 = 32;
const ALL_SCHEDULES: u32 = 63;

/// In which schedules a line is accredited; its steps are paid in no other. The word stands at byte 12 of the line's bytes.
///
/// ```
/// use mewikofu::Accreditation;
///
/// let lost_in_the_second = Accreditation::In([true, false, true, true, true]);
/// assert_eq!(lost_in_the_second.word(), 32 + 0b11101);
/// assert!(lost_in_the_second.holds_in(0) && !lost_in_the_second.holds_in(1));
/// assert!(Accreditation::Yes.holds_in(1) && !Accreditation::No.holds_in(0));
/// ```
#[derive(Clone, Copy, Debug, PartialEq, Eq, Hash)]
pub enum Accreditation {
    /// In no schedule: word 0.
    No,
    /// In all schedules: word 1.
    Yes,
    /// By schedule: words 32 to 63. The empty set is settled as `No` is, the full one as `Yes` is.
    In([bool; SCHEDULES]),
}

impl Accreditation {
    /// What a word says; none of 2 to 31 and above 63, which are refused with 6.
    ///
    /// ```
    /// use mewikofu::Accreditation;
    ///
    /// assert_eq!(Accreditation::of_word(1), Some(Accreditation::Yes));
    /// assert_eq!(Accreditation::of_word(33), Some(Accreditation::In([true, false, false, false, false])));
    /// assert_eq!([2, 31, 64].map(Accreditation::of_word), [None; 3]);
    /// ```
    pub fn of_word(word: u32) -> Option<Accreditation> {
        match word {
            0 => Some(Accreditation::No),
            1 => Some(Accreditation::Yes),
            NO_SCHEDULE..=ALL_SCHEDULES => {
                let schedules = std::array::from_fn(|s| word >> s & 1 == 1);
                Some(Accreditation::In(schedules))
            }
            _ => None,
        }
    }

    /// The word of the day file.
    pub fn word(self) -> u32 {
        match self {
            Accreditation::No => 0,
            Accreditation::Yes => 1,
            Accreditation::In(schedules) => {
                let bits = (0..SCHEDULES).map(|s| u32::from(schedules[s]) << s);
                NO_SCHEDULE + bits.sum::<u32>()
            }
        }
    }

    /// Whether the line is accredited in schedule s, counted from 0.
    ///
    /// # Panics
    ///
    /// Where s is above 4.
    pub fn holds_in(self, s: usize) -> bool {
        assert!(s < SCHEDULES, "s is a schedule counted from 0");
        match self {
            Accreditation::No => false,
            Accreditation::Yes => true,
            Accreditation::In(schedules) => schedules[s],
        }
    }
}
