//! The five calls of the planner, and what they answer.

/// A timetable has a place for each of 24 activity numbers.
pub const PLACES: usize = 24;

/// What stands in a timetable at an absent activity.
pub const MARK: u32 = 4294967295;

pub type Timetable = [u32; PLACES];

/// Number and figure of a refusal.
#[derive(Clone, Copy, Debug, PartialEq, Eq)]
pub struct Refusal {
    pub number: u64,
    pub figure: u64,
}

pub type Answer<T> = Result<T, Refusal>;

#[derive(Clone, Copy, Debug, PartialEq, Eq)]
pub struct Size {
    pub activities: u64,
    pub nodes: u64,
    pub variants: u64,
}

#[derive(Clone, Copy, Debug, PartialEq, Eq)]
pub struct Best {
    pub variant: u64,
    pub makespan: u64,
    /// The active schedules of all variants, each counted once.
    pub count: u64,
    /// How many of them have this makespan.
    pub shortest: u64,
}

/// Each call takes the bytes of a plan file. A refusal leaves every area as it was.
pub trait Planner {
    fn read(&self, file: &[u8]) -> Answer<Size>;

    /// Writes the variant at the front of the area; answers the number of bytes.
    fn write(&self, file: &[u8], variant: u64, area: &mut [u8]) -> Answer<u64>;

    /// Is the timetable a feasible schedule of the variant?
    fn check(&self, file: &[u8], variant: u64, starts: &Timetable) -> Answer<bool>;

    /// Writes the rows at the front of the area, a variant and then a start for each activity; answers their number.
    /// They stand by variant, then by the start of activity 0, then of activity 1 and so on through the present ones.
    fn list(&self, file: &[u8], cap: u32, area: &mut [u32]) -> Answer<u64>;

    /// Writes the schedule of the first shortest row into `starts`.
    fn best(&self, file: &[u8], cap: u32, starts: &mut Timetable) -> Answer<Best>;
}
