//! The functions of the static library, as in `lots.h`.
//!
//! Each answers the refusal number, or 0, and keeps no pointer. A caller lends
//! `length` bytes at `record`, writable where the pointer is `*mut`, and
//! writable outputs that overlap neither them nor each other.

extern "C" {
    pub fn lots_open(record: *mut u8, length: usize) -> u8;

    pub fn lots_join(
        record: *mut u8,
        length: usize,
        seat: u8,
        number: u64,
        vector: u8,
        contact: u8,
    ) -> u8;

    pub fn lots_reserve(record: *mut u8, length: usize, seat: u8, number: u64, vector: u8) -> u8;

    pub fn lots_confirm(record: *mut u8, length: usize, seat: u8, contact: u8) -> u8;

    pub fn lots_give_back(record: *mut u8, length: usize, seat: u8) -> u8;

    pub fn lots_leave(record: *mut u8, length: usize, seat: u8) -> u8;

    pub fn lots_deliver(
        record: *mut u8,
        length: usize,
        kind: u8,
        to: u8,
        about: u8,
        level: u8,
        side: u8,
    ) -> u8;

    pub fn lots_bundle(record: *mut u8, length: usize, limit: u16, delivered: *mut u16) -> u8;

    pub fn lots_turn(record: *mut u8, length: usize) -> u8;

    pub fn lots_crash(record: *mut u8, length: usize, seats: u64) -> u8;

    pub fn lots_merge(record: *mut u8, length: usize, first: u8, second: u8) -> u8;

    pub fn lots_find(
        record: *const u8,
        length: usize,
        seat: u8,
        number: u64,
        holder: *mut u8,
        hops: *mut u64,
    ) -> u8;

    pub fn lots_check(record: *const u8, length: usize, yes: *mut u8) -> u8;

    pub fn lots_read_lot(
        record: *const u8,
        length: usize,
        seat: u8,
        state: *mut u8,
        number: *mut u64,
        vector: *mut u8,
    ) -> u8;

    pub fn lots_read_link(
        record: *const u8,
        length: usize,
        seat: u8,
        level: u8,
        side: u8,
        link: *mut u8,
    ) -> u8;

    pub fn lots_read_message(
        record: *const u8,
        length: usize,
        kind: u8,
        to: u8,
        about: u8,
        level: u8,
        side: u8,
        pending: *mut u8,
    ) -> u8;

    pub fn lots_next_message(
        record: *const u8,
        length: usize,
        kind: u8,
        to: u8,
        about: u8,
        level: u8,
        side: u8,
        next_kind: *mut u8,
        next_to: *mut u8,
        next_about: *mut u8,
        next_level: *mut u8,
        next_side: *mut u8,
    ) -> u8;

    pub fn lots_read_counts(
        record: *const u8,
        length: usize,
        lots: *mut u8,
        phase: *mut u8,
        pending: *mut u32,
    ) -> u8;

    pub fn lots_validate(record: *const u8, length: usize) -> u8;
}

/// A refused call writes 0 to every output, which the safe calls do not show.
#[cfg(test)]
mod tests {
    use super::*;
    use crate::{Record, SIZE};

    fn outputs_of_a_seat_are_0(record: &[u8], refusal: u8) {
        let (start, length) = (record.as_ptr(), record.len());
        let (mut find, mut lot, mut link) = ((9, 9), (9, 9, 9), 9);
        // SAFETY: the slice is valid for its length, and the outputs are local.
        let answers = unsafe {
            [
                lots_find(start, length, 0, 7, &mut find.0, &mut find.1),
                lots_read_lot(start, length, 0, &mut lot.0, &mut lot.1, &mut lot.2),
                lots_read_link(start, length, 0, 0, 0, &mut link),
            ]
        };
        assert_eq!(answers, [refusal; 3]);
        assert_eq!((find, lot, link), ((0, 0), (0, 0, 0), 0));
    }

    fn outputs_of_the_whole_are_0(record: &[u8], refusal: u8) {
        let (start, length) = (record.as_ptr(), record.len());
        let (mut yes, mut pending, mut counts) = (9, 9, (9, 9, 9));
        let mut next = [9; 5];
        let [kind, to, about, level, side] = &mut next;
        // SAFETY: the slice is valid for its length, and the outputs are local.
        let answers = unsafe {
            [
                lots_check(start, length, &mut yes),
                lots_read_message(start, length, 1, 0, 1, 0, 0, &mut pending),
                lots_read_counts(start, length, &mut counts.0, &mut counts.1, &mut counts.2),
                lots_next_message(start, length, 1, 0, 1, 0, 0, kind, to, about, level, side),
            ]
        };
        assert_eq!(answers, [refusal; 4]);
        assert_eq!((yes, pending, counts, next), (0, 0, (0, 0, 0), [0; 5]));
    }

    fn output_of_a_bundle_is_0(record: &mut [u8], refusal: u8) {
        let mut delivered = 9;
        // SAFETY: the slice is valid for its length, and the output is local.
        let answer = unsafe { lots_bundle(record.as_mut_ptr(), record.len(), 9, &mut delivered) };
        assert_eq!((answer, delivered), (refusal, 0));
    }

    #[test]
    fn outputs_of_a_wrong_size_are_0() {
        outputs_of_a_seat_are_0(&[0], 1);
        outputs_of_the_whole_are_0(&[0], 1);
        output_of_a_bundle_is_0(&mut [0], 1);
    }

    #[test]
    fn outputs_of_an_unsound_record_are_0() {
        outputs_of_a_seat_are_0(&[0; SIZE], 2);
        outputs_of_the_whole_are_0(&[0; SIZE], 2);
        output_of_a_bundle_is_0(&mut [0; SIZE], 2);
    }

    /// It is written where nothing is pending too.
    #[test]
    fn output_of_a_bundle_of_nothing_is_0() {
        output_of_a_bundle_is_0(&mut Record::new().into_inner(), 0);
    }

    #[test]
    fn outputs_of_an_empty_seat_are_0() {
        outputs_of_a_seat_are_0(Record::new().as_bytes(), 8);
    }

    /// A side above 1 is no level, which the safe calls cannot ask for: after 3, before 8.
    #[test]
    fn a_side_above_1_is_refused() {
        let mut record = Record::new();
        record.join(0, 100, 0, None).unwrap();
        let (start, length) = (record.as_bytes().as_ptr(), SIZE);
        for side in [2, 255] {
            for (seat, level, refusal) in [(0, 0, 12), (0, 8, 12), (9, 0, 12), (64, 0, 3)] {
                let mut link = 9;
                // SAFETY: the bytes are valid for their length, and the output is local.
                let answer = unsafe { lots_read_link(start, length, seat, level, side, &mut link) };
                assert_eq!((answer, link), (refusal, 0));
            }
        }
    }

    #[test]
    fn outputs_of_a_scan_that_waits_are_0() {
        let mut record = Record::new();
        record.join(0, 100, 0, None).unwrap();
        record.join(1, 200, 0, Some(0)).unwrap();
        let (start, length) = (record.as_bytes().as_ptr(), SIZE);
        let (mut holder, mut hops) = (9, 9);
        // SAFETY: the bytes are valid for their length, and the outputs are local.
        let answer = unsafe { lots_find(start, length, 0, 7, &mut holder, &mut hops) };
        assert_eq!((answer, holder, hops), (13, 0, 0));
    }
}
