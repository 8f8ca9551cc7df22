//! Written files whose text is known from other sources.

ghost use Rattle.std.specs.Prelude.{◌+◌, ◌^◌, ◌≤◌, length};

use arrayvec::ArrayVec;
use avr_image::Pieces;
use avr_records::{IhexWriter, Kind, Run, SrecWriter, Writer, what_is_written_reads_back};
use std::alloc::Global;
use std::test::Fail;

/// Writes these bytes as a record file by the writer of its kind. The writer of any memory has to write the same.
fn text_of(alloc: Global, kind: Kind, base: u32, bytes: &[u8]) -> Result<Vec<u8>, Fail>
    requires { base + length bytes.now ≤ 2 ^ 32 }
{
    let mut text = Vec::new(alloc);
    let mut piece = ArrayVec::new();
    let run = Run::new(base, bytes);
    let mut writer = Writer::new(kind, &run);
    while writer.next_piece(&mut piece) {
        text.extend_from_slice(piece.as_slice())?;
    }
    let of_kind = match kind {
        Kind::Ihex => IhexWriter::new(base, bytes).to_vec(alloc)?,
        Kind::Srec => SrecWriter::new(base, bytes).to_vec(alloc)?,
    };
    if of_kind.as_slice() == text.as_slice() {
        Ok(of_kind)
    } else {
        Err(Fail::from("the writers differ"))
    }
}

#[test]
fn writes_ihex(rt: HostRuntime) -> Result<(), Fail> {
    let alloc = rt.alloc();
    let few: &[u8] = &[1, 2, 3, 0xFF];
    let text = text_of(alloc, Kind::Ihex, 0, few)?;
    assert_eq!(rt;
        text.as_slice(),
        b":04000000010203FFF7\n:00000001FF\n".as_slice()
    );
    let text = text_of(alloc, Kind::Ihex, 0, &[])?;
    assert_eq!(rt; text.as_slice(), b":00000001FF\n".as_slice());
    let text = text_of(alloc, Kind::Ihex, 0xFFFE, &few[..3])?;
    assert_eq!(rt;
        text.as_slice(),
        b":02FFFE000102FE\n:020000040001F9\n:0100000003FC\n:00000001FF\n".as_slice()
    );
    let text = text_of(alloc, Kind::Ihex, 0xFFFF_FFFF, &[0xAA])?;
    assert_eq!(rt;
        text.as_slice(),
        b":02000004FFFFFC\n:01FFFF00AA57\n:00000001FF\n".as_slice()
    );
    Ok(())
}

#[test]
fn writes_srec(rt: HostRuntime) -> Result<(), Fail> {
    let alloc = rt.alloc();
    let text = text_of(alloc, Kind::Srec, 0, &[1, 2, 3, 0xFF])?;
    assert_eq!(rt;
        text.as_slice(),
        b"S1070000010203FFF3\nS9030000FC\n".as_slice()
    );
    let text = text_of(alloc, Kind::Srec, 0x10000, &[0xAA])?;
    assert_eq!(rt;
        text.as_slice(),
        b"S205010000AA4F\nS804000000FB\n".as_slice()
    );
    let text = text_of(alloc, Kind::Srec, 0xFFFF, &[0xAA])?;
    assert_eq!(rt;
        text.as_slice(),
        b"S104FFFFAA53\nS9030000FC\n".as_slice()
    );
    let text = text_of(alloc, Kind::Srec, 0x100_0000, &[0xAA])?;
    assert_eq!(rt;
        text.as_slice(),
        b"S30601000000AA4E\nS70500000000FA\n".as_slice()
    );
    let text = text_of(alloc, Kind::Srec, 0x100_0000, &[])?;
    assert_eq!(rt; text.as_slice(), b"S9030000FC\n".as_slice());
    Ok(())
}

#[test]
fn writes_a_large_flash(rt: HostRuntime) -> Result<(), Fail> {
    let alloc = rt.alloc();
    let mut flash = vec![in alloc; 0xFFu8; 131074]?;
    assert!(rt; flash.len() == 131074);
    flash[131072] = 0x55;
    let text = text_of(alloc, Kind::Ihex, 0, flash.as_slice())?;
    assert!(rt;
        text.as_slice()
            .ends_with(b":020000040002F8\n:0200000055FFAA\n:00000001FF\n")
    );
    let text = text_of(alloc, Kind::Srec, 0, flash.as_slice())?;
    let lines = text.as_slice().split(|c| *c == b'\n');
    assert_eq!(rt; lines.filter(|line| line.starts_with(b"S2")).count(), 4097);
    assert!(rt;
        text.as_slice()
            .ends_with(b"\nS20602000055FFA3\nS804000000FB\n")
    );
    what_is_written_reads_back();
    Ok(())
}
