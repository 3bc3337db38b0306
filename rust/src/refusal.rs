use std::fmt;

/// Why a call was refused, by answer number; 5 is no longer given, and 10 is the trace program's alone. A refused call has changed nothing.
#[derive(Clone, Copy, Debug, PartialEq, Eq, Hash)]
#[repr(u32)]
pub enum Refusal {
    /// 1: `set_position` on an object that is marked removed.
    Removed = 1,
    /// 2: a cell size that is not from 1 to 1,048,576.
    CellSize = 2,
    /// 3: a number of slots or entries outside the limits (in `new`), lists of unequal length (in `batch`), or a map, a cell size or a
    /// number of circles that is not right (in `encoder::fill_map`).
    Tables = 3,
    /// 4: every slot is occupied or retired.
    NoUsableSlot = 4,
    /// 6: a coordinate or radius that is NaN or too large, a negative radius, a reversed box.
    OutsideDomain = 6,
    /// 7: more than 4,096 cells.
    TooManyCells = 7,
    /// 8: a box for which the pool has no room.
    PoolFull = 8,
    /// 9: fewer places for the replies than calls (in `batch`).
    OutputTooShort = 9,
    /// 11: a handle that no object has had: there is no such slot, or no object was in it at this version.
    NeverIssued = 11,
    /// 12: a handle whose object was taken out.
    Gone = 12,
    /// 13: a tracker number above 7.
    NoTracker = 13,
    /// 14: a point of another tracker.
    OtherTracker = 14,
}

impl Refusal {
    /// The answer number.
    pub fn number(self) -> u32 {
        self as u32
    }

    /// What an answer number says: nothing for 0, which is "done", and for numbers that no call answers, as 5 and 10.
    pub fn of(answer: u32) -> Option<Refusal> {
        use Refusal::*;
        let all = [
            Removed,
            CellSize,
            Tables,
            NoUsableSlot,
            OutsideDomain,
            TooManyCells,
            PoolFull,
            OutputTooShort,
            NeverIssued,
            Gone,
            NoTracker,
            OtherTracker,
        ];
        all.into_iter().find(|r| r.number() == answer)
    }
}

impl fmt::Display for Refusal {
    fn fmt(&self, f: &mut fmt::Formatter<'_>) -> fmt::Result {
        f.write_str(match self {
            Refusal::Removed => "set_position on an object marked removed",
            Refusal::CellSize => "cell size outside its limits",
            Refusal::Tables => "tables of wrong length or not holding a grid",
            Refusal::NoUsableSlot => "no usable slot",
            Refusal::OutsideDomain => "coordinate or radius outside the domain, box reversed",
            Refusal::TooManyCells => "range or box over 4,096 cells",
            Refusal::PoolFull => "entries in use, less the box's old ones, plus its new ones, exceed the pool",
            Refusal::OutputTooShort => "output shorter than the findings",
            Refusal::NeverIssued => "handle never issued",
            Refusal::Gone => "handle of an object that is gone",
            Refusal::NoTracker => "tracker number above 7",
            Refusal::OtherTracker => "point of another tracker",
        })
    }
}

impl std::error::Error for Refusal {}

/// What a call gives, if it answers 0. Another number that is no refusal must not pass for 0: a library from before 11 and 12 answers 5.
pub(crate) fn answered<T>(answer: u32, given: T) -> Result<T, Refusal> {
    if answer == 0 {
        return Ok(given);
    }
    Err(Refusal::of(answer).unwrap_or_else(|| panic!("{answer} is no answer of the library that this crate is for")))
}

/// For calls that nothing can refuse on tables that only these calls have changed.
pub(crate) fn done<T>(answer: u32, given: T) -> T {
    assert_eq!(answer, 0, "the tables of the grid were overwritten");
    given
}
