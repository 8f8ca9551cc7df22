//! Each call as a program in C makes it.

use avr_records_c::{
    Cursor, Outcome, Piece, avr_records_detect, avr_records_length, avr_records_read,
    avr_records_write,
};
use std::alloc::Global;
use std::process::Abort;
use std::test::Fail;

const GOOD: Outcome = Outcome {
    line: 0,
    address: 0,
    fault: 0,
    ended: true,
};

fn read(alloc: Global, kind: u8, text: &[u8], bytes: &mut [u8], present: &mut [u8]) -> Outcome {
    avr_records_read(alloc, kind, text, bytes, present)
}

const START: Cursor = Cursor {
    addr: 0,
    gone: 0,
    upper: 0,
    address_size: 0,
    ended: 0,
};

/// Writes a memory of three bytes, of which the first is absent, as S-records.
fn write(cursor: &mut Cursor, room: &mut [u8]) -> Piece {
    avr_records_write(2, &[0xFF, 0x0A, 0x0B], &[0b110], cursor, room)
}

/// Reads a file of one data record into a memory with the size of `bytes`.
fn fault_of(alloc: Global, kind: u8, bytes: &mut [u8], present: &mut [u8]) -> Outcome {
    read(alloc, kind, b":020001000A0BE8\n", bytes, present)
}

#[test]
fn formats_are_detected(rt: HostRuntime) -> Result<(), Fail> {
    assert_eq!(rt; avr_records_detect(b":00000001FF\n"), 1);
    assert_eq!(rt; avr_records_detect(b"S9030000FC\n"), 2);
    Ok(())
}

#[test]
fn a_file_is_read(rt: HostRuntime) -> Result<(), Fail> {
    let mut bytes = [0; 12];
    let mut present = [0; 2];
    let text: &[u8] = b":020001000A0BE8\n:00000001FF\n";
    let outcome = read(rt.alloc(), 1, text, &mut bytes, &mut present);
    assert_eq!(rt; outcome, GOOD);
    assert_eq!(rt; &bytes[..4], [0xFF, 0x0A, 0x0B, 0xFF].as_slice());
    assert_eq!(rt; present, [0b110, 0]);
    Ok(())
}

fn is_fault(rt: &impl Abort, outcome: Outcome, fault: u8, line: u32, address: u32) {
    assert_eq!(rt; outcome.fault, fault);
    assert_eq!(rt; outcome.line, line);
    assert_eq!(rt; outcome.address, address);
    assert!(rt; !outcome.ended);
}

#[test]
fn a_fault_leaves_the_memory(rt: HostRuntime) -> Result<(), Fail> {
    let mut bytes = [7; 2];
    let mut present = [7; 1];
    let outcome = fault_of(rt.alloc(), 1, &mut bytes, &mut present);
    is_fault(&rt, outcome, 6, 1, 2);
    let outcome = fault_of(rt.alloc(), 2, &mut bytes, &mut present);
    is_fault(&rt, outcome, 1, 1, 0);
    let outcome = fault_of(rt.alloc(), 4, &mut bytes, &mut present);
    is_fault(&rt, outcome, 11, 0, 0);
    let outcome = fault_of(rt.alloc(), 3, &mut bytes, &mut present);
    is_fault(&rt, outcome, 12, 0, 0);
    assert_eq!(rt; bytes, [7; 2]);
    assert_eq!(rt; present, [7; 1]);
    Ok(())
}

fn is_piece(rt: &impl Abort, piece: Piece, length: usize, fault: u8) {
    assert_eq!(rt; piece, Piece { length, fault });
}

#[test]
fn a_file_is_written(rt: HostRuntime) -> Result<(), Fail> {
    let mut cursor = START;
    let mut room = [0; 64];
    let piece = write(&mut cursor, &mut room);
    is_piece(&rt, piece, 26, 0);
    assert!(rt; room.starts_with(b"S10500010A0BE4\nS9030000FC\n\0"));
    let piece = write(&mut cursor, &mut room);
    is_piece(&rt, piece, 0, 0);
    Ok(())
}

#[test]
fn a_file_goes_on(rt: HostRuntime) -> Result<(), Fail> {
    let mut cursor = START;
    let mut room = [0; 16];
    let piece = write(&mut cursor, &mut room);
    is_piece(&rt, piece, 16, 0);
    assert_eq!(rt; room, *b"S10500010A0BE4\nS");
    let piece = write(&mut cursor, &mut room);
    is_piece(&rt, piece, 10, 0);
    assert!(rt; room.starts_with(b"9030000FC\n"));
    Ok(())
}

#[test]
fn a_bad_cursor_is_reported(rt: HostRuntime) -> Result<(), Fail> {
    let mut cursor = START;
    cursor.address_size = 5;
    let mut room = [7; 4];
    let piece = write(&mut cursor, &mut room);
    is_piece(&rt, piece, 0, 11);
    assert_eq!(rt; cursor.address_size, 5);
    assert_eq!(rt; room, [7; 4]);
    Ok(())
}

#[test]
fn a_length_is_returned(rt: HostRuntime) -> Result<(), Fail> {
    let notice = avr_records_length(2, &[0xFF, 0x0A, 0x0B], &[0b110]);
    assert_eq!(rt;
        notice,
        Piece {
            length: 26,
            fault: 0
        }
    );
    let notice = avr_records_length(3, &[], &[]);
    assert_eq!(rt;
        notice,
        Piece {
            length: 0,
            fault: 11
        }
    );
    Ok(())
}
