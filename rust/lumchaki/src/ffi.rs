//! The library's functions as `include/lumchaki.h` declares them.

use calls::{Head, Movement, Opened, Ran, Reading, Reported, RuleSet, Tipped, Transferred};

extern "C" {
    pub fn lumchaki_open(rule: u32, vessels: u32) -> Opened;
    pub fn lumchaki_set_rule(
        head: Head,
        table: *const u32,
        table_len: usize,
        vessel: u32,
        rule: u32,
    ) -> RuleSet;
    pub fn lumchaki_transfer(
        head: Head,
        table: *mut u32,
        table_len: usize,
        source: u32,
        destination: u32,
        minute: u32,
        weight: u32,
        age: u16,
    ) -> Transferred;
    pub fn lumchaki_lift(
        head: Head,
        table: *mut u32,
        table_len: usize,
        source: u32,
        minute: u32,
        weight: u32,
        age: u16,
    ) -> Transferred;
    pub fn lumchaki_tip(
        head: Head,
        table: *mut u32,
        table_len: usize,
        destination: u32,
        minute: u32,
    ) -> Tipped;
    pub fn lumchaki_held(
        head: Head,
        table: *const u32,
        table_len: usize,
        vessel: u32,
        report: *mut u32,
        report_len: usize,
    ) -> Reported;
    pub fn lumchaki_spread(
        head: Head,
        table: *const u32,
        table_len: usize,
        origin: u32,
        from: u32,
        to: u32,
        report: *mut u32,
        report_len: usize,
    ) -> Reported;
    pub fn lumchaki_whole(
        head: Head,
        table: *const u32,
        table_len: usize,
        report: *mut u32,
        report_len: usize,
    ) -> Reported;
    pub fn lumchaki_whole_by_rows(
        head: Head,
        table: *const u32,
        table_len: usize,
        report: *mut u32,
        report_len: usize,
    ) -> Reported;
    pub fn lumchaki_read(sheet: *const u8, sheet_len: usize) -> Reading;
    pub fn lumchaki_movement(sheet: *const u8, sheet_len: usize, index: u32) -> Movement;
    pub fn lumchaki_name(sheet: *const u8, sheet_len: usize, vessel: u32) -> usize;
    pub fn lumchaki_name_number(sheet: *const u8, sheet_len: usize, vessel: u32) -> u32;
    pub fn lumchaki_write(
        rule: u32,
        vessels: u32,
        names: *const u8,
        names_len: usize,
        numbers: *const u32,
        numbers_len: usize,
        out: *mut u8,
        out_len: usize,
    ) -> u32;
    pub fn lumchaki_run(
        sheet: *const u8,
        sheet_len: usize,
        table: *mut u32,
        table_len: usize,
    ) -> Ran;
}

#[cfg(test)]
#[allow(unsafe_code)]
mod tests {
    use super::*;
    use calls::Refusal;
    use std::ptr::{null, null_mut};

    /// The 24 + 2 × 8 + 12 bytes of a sheet with one movement, of age 4.
    const SHEET: &[u8; 52] = b"PROV\0\0\x02\0\x01\0\0\0\x18\0\0\0\x28\0\0\0\x34\0\0\0\
        A\0\0\0\0\0\0\0B\0\0\0\0\0\0\0\0\x01\x04\0\x05\0\0\0\x07\0\0\0";

    const SHORT: u32 = Refusal::TableShort.number();
    const NO_SHEET: u32 = Refusal::NoSheet.number();

    /// As the header says, null with the count 0 lends nothing. A proved function reads and
    /// writes only elements that a slice has; docs/DECISIONS.md says what else this rests on.
    #[test]
    fn null_lends_nothing_to_the_book() {
        let report_short = Refusal::ReportShort.number();
        let mut table = [0; 8];
        let mut room = [9; 2];
        let (t, r) = (table.as_mut_ptr(), room.as_mut_ptr());
        // SAFETY: a pointer lends as many elements as stand beside it, null none.
        let numbers = unsafe {
            let head = lumchaki_open(0, 2).head;
            [
                lumchaki_set_rule(head, null(), 0, 0, 1).number,
                lumchaki_transfer(head, null_mut(), 0, 0, 1, 0, 1, 0).number,
                lumchaki_lift(head, null_mut(), 0, 0, 0, 1, 0).number,
                lumchaki_tip(head, null_mut(), 0, 0, 0).number,
                lumchaki_held(head, null(), 0, 0, r, 2).number,
                lumchaki_held(head, null(), 0, 0, null_mut(), 0).number,
                lumchaki_held(head, t, 8, 0, null_mut(), 0).number,
                lumchaki_spread(head, null(), 0, 0, 0, 9, r, 2).number,
                lumchaki_spread(head, null(), 0, 0, 0, 9, null_mut(), 0).number,
                lumchaki_spread(head, t, 8, 0, 0, 9, null_mut(), 0).number,
                lumchaki_whole(head, null(), 0, r, 2).number,
                lumchaki_whole(head, null(), 0, null_mut(), 0).number,
                lumchaki_whole(head, t, 8, null_mut(), 0).number,
                lumchaki_whole_by_rows(head, null(), 0, r, 2).number,
                lumchaki_whole_by_rows(head, null(), 0, null_mut(), 0).number,
                lumchaki_whole_by_rows(head, t, 8, null_mut(), 0).number,
            ]
        };
        let [set_rule, transfer, lift, tip, reports @ ..] = numbers;
        assert_eq!([set_rule, transfer, lift, tip], [SHORT; 4]);
        for numbers in reports.chunks(3) {
            assert_eq!(numbers, [SHORT, SHORT, report_short]);
        }
        assert_eq!((table, room), ([0; 8], [9; 2]));
    }

    #[test]
    fn null_lends_nothing_to_the_sheet() {
        let (names, movement) = (&SHEET[24..40], [0, 1, 5, 7, 4]);
        let (n, m) = (names.as_ptr(), movement.as_ptr());
        let mut table = [0; 4];
        let mut out = [0xee; SHEET.len()];
        // SAFETY: a pointer lends as many elements as stand beside it, null none.
        unsafe {
            assert_eq!(lumchaki_read(SHEET.as_ptr(), SHEET.len()).number, 0);
            assert_eq!(lumchaki_read(null(), 0).number, NO_SHEET);
            assert_eq!(lumchaki_movement(null(), 0, 0).number, NO_SHEET);
            assert_eq!(lumchaki_name(null(), 0, 0), 0);
            assert_eq!(lumchaki_name_number(null(), 0, 0), NO_SHEET);
            let (sheet, length) = (SHEET.as_ptr(), SHEET.len());
            let run = lumchaki_run(sheet, length, null_mut(), 0);
            assert_eq!((run.number, run.head), (SHORT, Head::ZERO));
            let run = lumchaki_run(null(), 0, table.as_mut_ptr(), 4);
            assert_eq!((run.number, run.head), (NO_SHEET, Head::ZERO));
            assert_eq!(lumchaki_run(null(), 0, null_mut(), 0), run);

            let (o, room) = (out.as_mut_ptr(), out.len());
            let layout = Refusal::Layout.number();
            let output_short = Refusal::OutputShort.number();
            assert_eq!(lumchaki_write(0, 2, null(), 0, m, 5, o, room), layout);
            assert_eq!(
                lumchaki_write(0, 2, n, 16, m, 5, null_mut(), 0),
                output_short
            );
            assert_eq!(
                lumchaki_write(0, 2, null(), 0, null(), 0, null_mut(), 0),
                layout
            );
            assert!(out.iter().all(|&byte| byte == 0xee));
            assert_eq!(lumchaki_write(0, 2, n, 16, m, 5, o, room), 0);
            assert_eq!(&out, SHEET);

            // No numbers are no movements: a sheet of 24 + 2 × 8 bytes.
            assert_eq!(lumchaki_write(0, 2, n, 16, null(), 0, o, room), 0);
            let read = lumchaki_read(o, 40);
            assert_eq!((read.number, read.movements), (0, 0));
            let run = lumchaki_run(o, 40, table.as_mut_ptr(), 4);
            assert_eq!((run.number, run.head), (0, lumchaki_open(0, 2).head));
        }
        assert_eq!((table, &out[40..]), ([0; 4], &SHEET[40..]));
    }
}
