//! The reports.

use super::scale::without_load;
use super::{guarded, Pair};
use calls::{Engine, Head, Refusal, Reported};
use second::Second;

/// A report on a book by an engine, to a room.
type Reporting<'c> = &'c dyn Fn(&dyn Engine, (Head, &[u32]), &mut [u32]) -> Reported;

impl Pair {
    /// A report, by the call that makes it. The table stays, a refusal writes nothing, the numbers
    /// after the report remain, and the book without its load gives the same.
    fn report(
        &mut self,
        name: &'static str,
        numbers: usize,
        book: (Head, &[u32]),
        report: &mut [u32],
        call: Reporting,
    ) -> Reported {
        let (head, table) = book;
        let (table_before, before) = (table.to_vec(), report.to_vec());
        let answer = guarded(report, 0xdead_beef, |report| {
            call(self.subject, book, report)
        });
        let mut expected_report = before.clone();
        let expected = call(&Second, book, &mut expected_report);
        self.same(name, &head, answer, expected);
        self.same(name, &head, &*report, &expected_report);
        assert_eq!(answer.head, head, "{name} hands the head back");
        assert_eq!(table, table_before, "{name} leaves the table");
        let written = if answer.number == 0 { numbers } else { 0 };
        assert_eq!(
            report[written..],
            before[written..],
            "{name} leaves the rest"
        );
        if head.scale > 0 && answer.number != Refusal::BookOff.number() {
            let (bare, others) = without_load(&head, table);
            let mut expected_report = before;
            let expected = call(self.subject, (bare, &others), &mut expected_report);
            self.same(name, &head, answer.number, expected.number);
            self.same(name, &head, &*report, &expected_report);
        }
        self.note_beside(name, &head, answer.number);
        self.tally.add(name, answer.number);
        answer
    }

    /// The held report.
    pub fn held(&mut self, head: Head, table: &[u32], vessel: u32, room: &mut [u32]) -> Reported {
        let numbers = head.vessels as usize;
        self.report(
            "held",
            numbers,
            (head, table),
            room,
            &|engine, book, room| engine.held(book.0, book.1, vessel, room),
        )
    }

    /// The spread report.
    pub fn spread(
        &mut self,
        head: Head,
        table: &[u32],
        origin: u32,
        span: (u32, u32),
        room: &mut [u32],
    ) -> Reported {
        let numbers = head.vessels as usize;
        self.report(
            "spread",
            numbers,
            (head, table),
            room,
            &|engine, book, room| engine.spread(book.0, book.1, origin, span, room),
        )
    }

    /// The whole report, made both ways on the room as it was lent: in one pass, and row by row. They
    /// answer the same and leave the same.
    pub fn whole(&mut self, head: Head, table: &[u32], room: &mut [u32]) -> Reported {
        let (numbers, book) = ((head.vessels as usize).pow(2), (head, table));
        let mut rows = room.to_vec();
        let answer = self.report("whole", numbers, book, room, &|engine, book, room| {
            engine.whole(book.0, book.1, room)
        });
        let by_rows = self.report(
            "whole by rows",
            numbers,
            book,
            &mut rows,
            &|engine, book, room| engine.whole_by_rows(book.0, book.1, room),
        );
        assert_eq!((by_rows, &rows[..]), (answer, &*room), "both ways");
        answer
    }
}
