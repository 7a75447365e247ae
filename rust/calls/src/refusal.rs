//! The refusals of document 01, "Numbers and their words", and those of document 02's ages and scale.

use core::error::Error;
use core::fmt;

/// Why a call was refused.
#[derive(Clone, Copy, Debug, PartialEq, Eq, PartialOrd, Ord, Hash)]
#[repr(u32)]
pub enum Refusal {
    /// The table has fewer than 4 numbers.
    TableShort = 1,
    /// The rule is above 3; one that is to be set for a vessel, above 4.
    RuleUnknown = 2,
    /// The count of vessels is not 1 to 64.
    VesselCount = 3,
    /// Head and table are no book that adds up.
    BookOff = 4,
    /// A vessel or origin is not below the count of vessels.
    NoVessel = 5,
    /// Source and destination are the same.
    SameVessel = 6,
    /// The weight is 0.
    NoWeight = 7,
    /// The minute is before the last accepted one.
    ClockBack = 8,
    /// The destination's balance would pass 4,294,967,295.
    Overfull = 9,
    /// 4,294,967,295 transfers and lifts were accepted already.
    TallyFull = 10,
    /// The pieces afterwards would exceed the places.
    TableFull = 11,
    /// The span ends before it starts.
    SpanBack = 12,
    /// The room for the report is too small.
    ReportShort = 13,
    /// Fewer than 24 bytes, or another mark.
    NoSheet = 14,
    /// The count of movements is above 4,096.
    Movements = 15,
    /// An offset or length is wrong.
    Layout = 16,
    /// A name is ill-formed or used twice.
    Name = 17,
    /// An age that is to be written is above 65,535.
    AgeOver = 18,
    /// The room for the sheet is too small.
    OutputShort = 19,
    /// The movement asked for is not on the sheet.
    PastEnd = 20,
    /// The age is above the minute.
    BeforeTime = 21,
    /// A lift, while there is weight on the scale.
    ScaleLoaded = 22,
    /// A tip, while there is no weight on the scale.
    ScaleBare = 23,
}

impl Refusal {
    /// Every refusal, in the order of its number.
    pub const ALL: [Refusal; 23] = [
        Refusal::TableShort,
        Refusal::RuleUnknown,
        Refusal::VesselCount,
        Refusal::BookOff,
        Refusal::NoVessel,
        Refusal::SameVessel,
        Refusal::NoWeight,
        Refusal::ClockBack,
        Refusal::Overfull,
        Refusal::TallyFull,
        Refusal::TableFull,
        Refusal::SpanBack,
        Refusal::ReportShort,
        Refusal::NoSheet,
        Refusal::Movements,
        Refusal::Layout,
        Refusal::Name,
        Refusal::AgeOver,
        Refusal::OutputShort,
        Refusal::PastEnd,
        Refusal::BeforeTime,
        Refusal::ScaleLoaded,
        Refusal::ScaleBare,
    ];

    /// The refusal of a number; none for 0 and for a number that no call gives.
    pub fn of(number: u32) -> Option<Refusal> {
        Refusal::ALL.into_iter().find(|r| r.number() == number)
    }

    /// Its number in document 01 or 02.
    pub const fn number(self) -> u32 {
        self as u32
    }

    /// Its word in document 01 or 02.
    pub const fn word(self) -> &'static str {
        match self {
            Refusal::TableShort => "no tray",
            Refusal::RuleUnknown => "rule unknown",
            Refusal::VesselCount => "vessel count",
            Refusal::BookOff => "book off",
            Refusal::NoVessel => "no vessel",
            Refusal::SameVessel => "same tub",
            Refusal::NoWeight => "empty scoop",
            Refusal::ClockBack => "clock back",
            Refusal::Overfull => "overfull",
            Refusal::TallyFull => "tally full",
            Refusal::TableFull => "tray full",
            Refusal::SpanBack => "span back",
            Refusal::ReportShort => "short form",
            Refusal::NoSheet => "no sheet",
            Refusal::Movements => "movements",
            Refusal::Layout => "layout",
            Refusal::Name => "name",
            Refusal::AgeOver => "filler",
            Refusal::OutputShort => "short paper",
            Refusal::PastEnd => "past the end",
            Refusal::BeforeTime => "milled before time",
            Refusal::ScaleLoaded => "scale loaded",
            Refusal::ScaleBare => "scale bare",
        }
    }
}

impl fmt::Display for Refusal {
    fn fmt(&self, out: &mut fmt::Formatter<'_>) -> fmt::Result {
        write!(out, "{} ({})", self.word(), self.number())
    }
}

impl Error for Refusal {}

#[cfg(test)]
mod tests {
    use super::Refusal;

    #[test]
    fn numbers_run_from_1_to_23() {
        for (i, refusal) in Refusal::ALL.into_iter().enumerate() {
            assert_eq!(refusal.number(), i as u32 + 1);
            assert_eq!(Refusal::of(refusal.number()), Some(refusal));
        }
        assert_eq!(Refusal::of(0), None);
        assert_eq!(Refusal::of(24), None);
    }
}
