//= avr_records Found Kind RecordReader Ending RecordFault Found::Ihex Found::Srec Found::Elf Found::Raw Kind::Ihex
//= Kind::Srec Ending::Ended Ending::NoEnd RecordFault::BadMark RecordFault::BadDigit RecordFault::BadLength
//= RecordFault::BadSum RecordFault::BadType RecordFault::OutOfRange RecordFault::LineTooLong RecordFault::BadCount
//= RecordFault::Failed RecordFault::Memory detect RecordReader::new RecordReader::feed RecordReader::fed
//= RecordReader::finish RecordFault::number IhexWriter IhexWriter::new IhexWriter::next_piece SrecWriter
//= SrecWriter::new SrecWriter::next_piece
use arrayvec::ArrayVec;
use avr_image::Image;
use avr_records::{
    Ending, Found, IhexWriter, Kind, RecordFault, RecordReader, SrecWriter, detect,
};
use std::test::Fail;

#[test]
fn readers(rt: HostRuntime) -> Result<(), Fail> {
    let found: Found = detect(b":0400000001020304F2");
    assert!(rt; found == Found::Ihex);
    assert!(rt; detect(b"S10700000102") == Found::Srec);
    assert!(rt; detect(b"\x7fELF") == Found::Elf);
    assert!(rt; detect(b"") == Found::Raw);
    for kind in [Kind::Ihex, Kind::Srec] {
        let reader: Result<RecordReader, RecordFault> = RecordReader::new(rt.alloc(), kind, 4u32);
        let mut reader = reader?;
        let fed: Result<(), RecordFault> = reader.feed(b"");
        assert!(rt; fed.is_ok());
        let count: u32 = reader.fed();
        assert!(rt; count == 0);
        let finished: Result<(Image, Ending), RecordFault> = reader.finish();
        let (_, ending) = finished?;
        assert!(rt; ending == Ending::NoEnd && ending != Ending::Ended);
    }
    Ok(())
}

/// Three bytes from FFFE on as Intel HEX, and one at 10000 as S-records.
#[test]
fn writers(rt: HostRuntime) {
    let mut line: ArrayVec<u8, 80> = ArrayVec::new();
    let bytes = [1u8, 2, 3];
    let mut ihex: IhexWriter<'_> = IhexWriter::new(0xFFFEu32, &bytes);
    for wanted in [":02FFFE000102FE\n", ":020000040001F9\n", ":0100000003FC\n", ":00000001FF\n"] {
        let more: bool = ihex.next_piece(&mut line);
        assert!(rt; more && line.as_slice() == wanted.as_bytes());
    }
    assert!(rt; !ihex.next_piece(&mut line) && line.is_empty());
    let byte = [0xAAu8];
    let mut srec: SrecWriter<'_> = SrecWriter::new(0x10000u32, &byte);
    for wanted in ["S205010000AA4F\n", "S804000000FB\n"] {
        let more: bool = srec.next_piece(&mut line);
        assert!(rt; more && line.as_slice() == wanted.as_bytes());
    }
    assert!(rt; !srec.next_piece(&mut line));
}

#[test]
fn numbers(rt: HostRuntime) {
    let faults: [(RecordFault, u8); 10] = [
        (RecordFault::BadMark(1), 1),
        (RecordFault::BadDigit(1), 2),
        (RecordFault::BadLength(1), 3),
        (RecordFault::BadSum(1), 4),
        (RecordFault::BadType(1), 5),
        (RecordFault::OutOfRange(1, 2), 6),
        (RecordFault::LineTooLong(1), 7),
        (RecordFault::BadCount(1), 8),
        (RecordFault::Failed, 9),
        (RecordFault::Memory, 10),
    ];
    for (fault, number) in faults {
        assert!(rt; fault.number() == number);
    }
}
