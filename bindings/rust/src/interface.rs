//! The eighteen functions of the archive, and the only unsafe code of this crate. A Rust slice is what they ask for: a pointer that is not null to as many bytes as its
//! length says; and a `&mut` slice is lent to nobody else.

use crate::answer::Numbers;

mod foreign {
    extern "C" {
        pub fn zatovola_room_size(names: u64, reservations: u64) -> u64;
        pub fn zatovola_make(room: *mut u8, room_length: usize, names: u64, reservations: u64) -> u8;
        pub fn zatovola_answer(
            room: *mut u8,
            room_length: usize,
            frame: *const u8,
            frame_length: usize,
            output: *mut u8,
            output_length: usize,
        ) -> usize;
        pub fn zatovola_batch(
            room: *mut u8,
            room_length: usize,
            input: *const u8,
            input_length: usize,
            output: *mut u8,
            output_length: usize,
            used: *mut usize,
        ) -> usize;
        pub fn zatovola_write_operation(
            code: u8,
            number: u64,
            amount: i64,
            part: *const u8,
            part_length: usize,
            output: *mut u8,
            output_length: usize,
            written: *mut usize,
        ) -> u8;
        pub fn zatovola_write_frame(
            code: u8,
            number: u64,
            amount: i64,
            part: *const u8,
            part_length: usize,
            output: *mut u8,
            output_length: usize,
            written: *mut usize,
        ) -> u8;
        pub fn zatovola_write_answer(
            code: u8,
            words: *const super::Words,
            part: *const u8,
            part_length: usize,
            output: *mut u8,
            output_length: usize,
            written: *mut usize,
        ) -> u8;
        pub fn zatovola_read_answer(
            code: u8,
            line: *const u8,
            line_length: usize,
            bytes: *mut u8,
            bytes_length: usize,
            words: *mut super::Words,
        ) -> u8;
        pub fn zatovola_read_answer_bytes(code: u8, bytes: *const u8, bytes_length: usize, words: *mut super::Words) -> u8;
        pub fn zatovola_remaining(room: *const u8, room_length: usize, name: *const u8, name_length: usize, value: *mut i64) -> u8;
        pub fn zatovola_initial(room: *const u8, room_length: usize, name: *const u8, name_length: usize, value: *mut i64) -> u8;
        pub fn zatovola_committed(room: *const u8, room_length: usize, name: *const u8, name_length: usize, value: *mut i64) -> u8;
        pub fn zatovola_reserved(room: *const u8, room_length: usize, name: *const u8, name_length: usize, value: *mut i64) -> u8;
        pub fn zatovola_committed_total(room: *const u8, room_length: usize, value: *mut i64) -> u8;
        pub fn zatovola_accounts(room: *const u8, room_length: usize, value: *mut u64) -> u8;
        pub fn zatovola_live_reservations(room: *const u8, room_length: usize, value: *mut u64) -> u8;
        pub fn zatovola_last_version(room: *const u8, room_length: usize, value: *mut u64) -> u8;
        pub fn zatovola_committed_since(room: *const u8, room_length: usize, value: *mut i64) -> u8;
    }
}

pub fn room_size(names: u64, reservations: u64) -> u64 {
    unsafe { foreign::zatovola_room_size(names, reservations) }
}

pub fn make(room: &mut [u8], names: u64, reservations: u64) -> u8 {
    unsafe { foreign::zatovola_make(room.as_mut_ptr(), room.len(), names, reservations) }
}

/// How many bytes of output were written.
pub fn answer(room: &mut [u8], frame: &[u8], output: &mut [u8]) -> usize {
    unsafe {
        foreign::zatovola_answer(
            room.as_mut_ptr(),
            room.len(),
            frame.as_ptr(),
            frame.len(),
            output.as_mut_ptr(),
            output.len(),
        )
    }
}

/// How many bytes of input were used and how many of output were written.
pub fn batch(room: &mut [u8], input: &[u8], output: &mut [u8]) -> (usize, usize) {
    let mut used = 0;
    let written = unsafe {
        foreign::zatovola_batch(
            room.as_mut_ptr(),
            room.len(),
            input.as_ptr(),
            input.len(),
            output.as_mut_ptr(),
            output.len(),
            &mut used,
        )
    };
    (used, written)
}

/// An answer number, and where that is 0 the value that it carries.
pub type Told<T> = (u8, T);

/// An answer's number and a word for each value that it carries.
pub const MOST_WORDS: usize = 9;
pub type Words = [u64; MOST_WORDS];

/// An operation by its code: an id or a fence, an amount or a since, a name or a snapshot. What it has no field for is not looked at.
pub struct Parts<'a> {
    pub code: u8,
    pub number: u64,
    pub amount: i64,
    pub part: &'a [u8],
}

type WriteOperation = unsafe extern "C" fn(u8, u64, i64, *const u8, usize, *mut u8, usize, *mut usize) -> u8;

fn of_operation(write: WriteOperation, operation: &Parts, output: &mut [u8]) -> Told<usize> {
    let (part, mut written) = (operation.part, 0);
    let number = unsafe {
        write(
            operation.code,
            operation.number,
            operation.amount,
            part.as_ptr(),
            part.len(),
            output.as_mut_ptr(),
            output.len(),
            &mut written,
        )
    };
    (number, written)
}

/// How many characters of the operation's line were written.
pub fn write_operation(operation: &Parts, output: &mut [u8]) -> Told<usize> {
    of_operation(foreign::zatovola_write_operation, operation, output)
}

/// How many bytes of the operation were written.
pub fn write_frame(operation: &Parts, output: &mut [u8]) -> Told<usize> {
    of_operation(foreign::zatovola_write_frame, operation, output)
}

/// How many characters of the answer's line were written.
pub fn write_answer(answer: &Numbers, output: &mut [u8]) -> Told<usize> {
    let mut written = 0;
    let number = unsafe {
        foreign::zatovola_write_answer(
            answer.code,
            &answer.words,
            answer.part.as_ptr(),
            answer.part.len(),
            output.as_mut_ptr(),
            output.len(),
            &mut written,
        )
    };
    (number, written)
}

/// The words of an answer's line, whose bytes stand at the front of the lent ones then.
pub fn read_answer(code: u8, line: &[u8], bytes: &mut [u8]) -> Told<Words> {
    let mut words = [0; MOST_WORDS];
    let number = unsafe { foreign::zatovola_read_answer(code, line.as_ptr(), line.len(), bytes.as_mut_ptr(), bytes.len(), &mut words) };
    (number, words)
}

/// The words of an answer's bytes.
pub fn read_answer_bytes(code: u8, bytes: &[u8]) -> Told<Words> {
    let mut words = [0; MOST_WORDS];
    let number = unsafe { foreign::zatovola_read_answer_bytes(code, bytes.as_ptr(), bytes.len(), &mut words) };
    (number, words)
}

fn of_name(read: unsafe extern "C" fn(*const u8, usize, *const u8, usize, *mut i64) -> u8, room: &[u8], name: &[u8]) -> Told<i64> {
    let mut value = 0;
    let number = unsafe { read(room.as_ptr(), room.len(), name.as_ptr(), name.len(), &mut value) };
    (number, value)
}

fn of_ledger<T: Default>(read: unsafe extern "C" fn(*const u8, usize, *mut T) -> u8, room: &[u8]) -> Told<T> {
    let mut value = T::default();
    let number = unsafe { read(room.as_ptr(), room.len(), &mut value) };
    (number, value)
}

pub fn remaining(room: &[u8], name: &[u8]) -> Told<i64> {
    of_name(foreign::zatovola_remaining, room, name)
}

pub fn initial(room: &[u8], name: &[u8]) -> Told<i64> {
    of_name(foreign::zatovola_initial, room, name)
}

pub fn committed(room: &[u8], name: &[u8]) -> Told<i64> {
    of_name(foreign::zatovola_committed, room, name)
}

pub fn reserved(room: &[u8], name: &[u8]) -> Told<i64> {
    of_name(foreign::zatovola_reserved, room, name)
}

pub fn committed_total(room: &[u8]) -> Told<i64> {
    of_ledger(foreign::zatovola_committed_total, room)
}

pub fn accounts(room: &[u8]) -> Told<u64> {
    of_ledger(foreign::zatovola_accounts, room)
}

pub fn live_reservations(room: &[u8]) -> Told<u64> {
    of_ledger(foreign::zatovola_live_reservations, room)
}

pub fn last_version(room: &[u8]) -> Told<u64> {
    of_ledger(foreign::zatovola_last_version, room)
}

pub fn committed_since(room: &[u8]) -> Told<i64> {
    of_ledger(foreign::zatovola_committed_since, room)
}
