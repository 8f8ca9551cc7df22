//! Message lines, byte for byte: the examples of the documentation, and one with each kind of piece.
use avr_desk::{MemDesk, Piece, print_error, print_information, print_warning};
use std::test::Fail;

#[test]
fn information_is_printed(rt: HostRuntime) -> Result<(), Fail> {
    let mut desk = MemDesk::empty(rt.alloc());
    let signature = Piece::Signature([0x1E, 0x95, 0x0F]);
    print_information(&mut desk, &[Piece::Text("device signature = "), signature])?;
    assert!(rt; desk.messages() == b"avrstk: device signature = 1E 95 0F\n".as_slice());
    Ok(())
}

#[test]
fn a_warning_is_printed(rt: HostRuntime) -> Result<(), Fail> {
    let mut desk = MemDesk::empty(rt.alloc());
    print_warning(
        &mut desk,
        &[Piece::Text("a.hex"), Piece::Text(": no end record")],
    )?;
    assert!(rt; desk.messages() == b"avrstk: warning: a.hex: no end record\n".as_slice());
    Ok(())
}

#[test]
fn an_error_is_printed(rt: HostRuntime) -> Result<(), Fail> {
    let mut desk = MemDesk::empty(rt.alloc());
    let pieces = [
        Piece::Text("command "),
        Piece::Byte(0x10),
        Piece::Text(": bad answer"),
    ];
    print_error(&mut desk, &pieces)?;
    assert!(rt; desk.messages() == b"avrstk: error: command 10: bad answer\n".as_slice());
    Ok(())
}

#[test]
fn numbers_are_printed(rt: HostRuntime) -> Result<(), Fail> {
    let mut desk = MemDesk::empty(rt.alloc());
    let pieces = [
        Piece::Number(4_194_304),
        Piece::Text(" "),
        Piece::Address(0x0001_00C0),
    ];
    print_information(&mut desk, &pieces)?;
    assert!(rt; desk.messages() == b"avrstk: 4194304 000100C0\n".as_slice());
    Ok(())
}
