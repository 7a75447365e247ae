//! The proved library's algorithms in ordinary Rust, with the same checks and the same memory: a flat table
//! for single calls, lanes for a run, no heap, scratch on the stack. The benchmarks measure the library
//! against it.

#![no_std]

mod book;
mod report;
mod run;
mod sheet;
mod stir;
mod tip;
mod transfer;

use calls::{
    Engine, Head, Lift, Movement, Opened, Ran, Reading, Refusal, Reported, RuleSet, Tip, Tipped,
    Transfer, Transferred,
};

/// The plain implementation.
pub struct Plain;

impl Engine for Plain {
    fn label(&self) -> &'static str {
        "plain"
    }

    fn open(&self, rule: u32, vessels: u32) -> Opened {
        match book::open(rule, vessels) {
            Ok(head) => Opened { number: 0, head },
            Err(refusal) => Opened {
                number: refusal.number(),
                head: Head::ZERO,
            },
        }
    }

    fn set_rule(&self, head: Head, table: &[u32], vessel: u32, rule: u32) -> RuleSet {
        match book::set_rule(head, table, vessel, rule) {
            Ok(head) => RuleSet { number: 0, head },
            Err(refusal) => RuleSet {
                number: refusal.number(),
                head,
            },
        }
    }

    fn transfer(&self, head: Head, table: &mut [u32], transfer: Transfer) -> Transferred {
        transfer::transfer(head, table, &transfer)
    }

    fn lift(&self, head: Head, table: &mut [u32], lift: Lift) -> Transferred {
        transfer::lift(head, table, &lift)
    }

    fn tip(&self, head: Head, table: &mut [u32], tip: Tip) -> Tipped {
        match tip::tip(head, table, &tip) {
            Ok(head) => Tipped { number: 0, head },
            Err(refusal) => Tipped {
                number: refusal.number(),
                head,
            },
        }
    }

    fn held(&self, head: Head, table: &[u32], vessel: u32, report: &mut [u32]) -> Reported {
        let number = number_of(report::held(&head, table, vessel, report));
        Reported { number, head }
    }

    fn spread(
        &self,
        head: Head,
        table: &[u32],
        origin: u32,
        span: (u32, u32),
        report: &mut [u32],
    ) -> Reported {
        let number = number_of(report::spread(&head, table, origin, span, report));
        Reported { number, head }
    }

    fn whole(&self, head: Head, table: &[u32], report: &mut [u32]) -> Reported {
        let number = number_of(report::whole(&head, table, report));
        Reported { number, head }
    }

    fn whole_by_rows(&self, head: Head, table: &[u32], report: &mut [u32]) -> Reported {
        let number = number_of(report::whole_by_rows(&head, table, report));
        Reported { number, head }
    }

    fn read(&self, sheet: &[u8]) -> Reading {
        sheet::read(sheet)
    }

    fn movement(&self, sheet: &[u8], index: u32) -> Movement {
        sheet::movement(sheet, index)
    }

    fn name<'s>(&self, sheet: &'s [u8], vessel: u32) -> &'s [u8] {
        sheet::name(sheet, vessel).unwrap_or(&sheet[..0])
    }

    fn name_number(&self, sheet: &[u8], vessel: u32) -> u32 {
        number_of(sheet::name(sheet, vessel).map(|_| ()))
    }

    fn write(&self, rule: u32, vessels: u32, names: &[u8], numbers: &[u32], out: &mut [u8]) -> u32 {
        number_of(sheet::write(rule, vessels, names, numbers, out))
    }

    fn run(&self, sheet: &[u8], table: &mut [u32]) -> Ran {
        run::run(sheet, table)
    }
}

/// 0 or the refusal's number.
fn number_of(result: Result<(), Refusal>) -> u32 {
    result.err().map_or(0, Refusal::number)
}
