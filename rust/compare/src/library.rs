//! The proved library behind the calls.

use calls::{
    Engine, Head, Lift, Movement, Opened, Ran, Reading, Reported, RuleSet, Tip, Tipped, Transfer,
    Transferred,
};
use lumchaki::raw;

/// The proved library.
pub struct Library;

impl Engine for Library {
    fn label(&self) -> &'static str {
        "library"
    }

    fn open(&self, rule: u32, vessels: u32) -> Opened {
        raw::open(rule, vessels)
    }

    fn set_rule(&self, head: Head, table: &[u32], vessel: u32, rule: u32) -> RuleSet {
        raw::set_rule(head, table, vessel, rule)
    }

    fn transfer(&self, head: Head, table: &mut [u32], transfer: Transfer) -> Transferred {
        raw::transfer(head, table, transfer)
    }

    fn lift(&self, head: Head, table: &mut [u32], lift: Lift) -> Transferred {
        raw::lift(head, table, lift)
    }

    fn tip(&self, head: Head, table: &mut [u32], tip: Tip) -> Tipped {
        raw::tip(head, table, tip)
    }

    fn held(&self, head: Head, table: &[u32], vessel: u32, report: &mut [u32]) -> Reported {
        raw::held(head, table, vessel, report)
    }

    fn spread(
        &self,
        head: Head,
        table: &[u32],
        origin: u32,
        span: (u32, u32),
        report: &mut [u32],
    ) -> Reported {
        raw::spread(head, table, origin, span, report)
    }

    fn whole(&self, head: Head, table: &[u32], report: &mut [u32]) -> Reported {
        raw::whole(head, table, report)
    }

    fn whole_by_rows(&self, head: Head, table: &[u32], report: &mut [u32]) -> Reported {
        raw::whole_by_rows(head, table, report)
    }

    fn read(&self, sheet: &[u8]) -> Reading {
        raw::read(sheet)
    }

    fn movement(&self, sheet: &[u8], index: u32) -> Movement {
        raw::movement(sheet, index)
    }

    fn name<'s>(&self, sheet: &'s [u8], vessel: u32) -> &'s [u8] {
        raw::name(sheet, vessel)
    }

    fn name_number(&self, sheet: &[u8], vessel: u32) -> u32 {
        raw::name_number(sheet, vessel)
    }

    fn write(&self, rule: u32, vessels: u32, names: &[u8], numbers: &[u32], out: &mut [u8]) -> u32 {
        raw::write(rule, vessels, names, numbers, out)
    }

    fn run(&self, sheet: &[u8], table: &mut [u32]) -> Ran {
        raw::run(sheet, table)
    }
}
