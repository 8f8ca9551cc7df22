//! Files whose meaning is known from other sources, and a success of each public call.

mod slow;

use avr_image::Image;
use avr_records::{
    Ending, Found, Kind, RecordFault, RecordReader, Writer, detect, needed_size, read_record,
};
use slow::slow_read;
use std::alloc::Global;
use std::process::Abort;
use std::test::Fail;

/// The lengths of the pieces in which files are fed.
const CUTS: [usize; 6] = [1, 2, 3, 5, 280, 281];

/// What a file holds: its bytes at their addresses and how it ends, or its fault.
type EmitsAll<'a> = Result<(&'a [(u32, u8)], Ending), RecordFault>;

/// Reads a file that is fed in pieces of this length.
fn read_cut(
    alloc: Global,
    kind: Kind,
    size: u32,
    text: &[u8],
    cut: usize,
) -> Result<(Image, Ending), RecordFault> {
    let mut reader = RecordReader::new(alloc, kind, size)?;
    let mut rest = text;
    for _ in 0..text.len() {
        let piece = &rest[..rest.len().min(cut)];
        rest = &rest[piece.len()..];
        if reader.fed() < 1_000_000 && piece.len() < 1_000 {
            reader.feed(piece)?;
        }
    }
    reader.finish()
}

/// Checks what a file holds, in pieces of each length.
fn emits(rt: &impl Abort, alloc: Global, kind: Kind, size: u32, text: &[u8], want: EmitsAll<'_>) {
    for cut in CUTS {
        match (read_cut(alloc, kind, size, text, cut), want) {
            (Ok((image, ending)), Ok((bytes, want_ending))) => {
                assert_eq!(rt; ending, want_ending, "in pieces of {cut}");
                assert_eq!(rt; image.len() as usize, bytes.len(), "in pieces of {cut}");
                for (addr, byte) in bytes {
                    assert_eq!(rt; image.get(*addr), Some(*byte), "at {addr}");
                }
            }
            (Err(fault), Err(want_fault)) => {
                assert_eq!(rt; fault, want_fault, "in pieces of {cut}");
            }
            _ => assert!(rt; false, "another outcome in pieces of {cut}"),
        }
    }
}

#[test]
fn reads_ihex(rt: HostRuntime) {
    let alloc = rt.alloc();
    let four: &[(u32, u8)] = &[(0, 1), (1, 2), (2, 3), (3, 4)];
    let wrapped: &[(u32, u8)] = &[(0x1FFFF, 0xAA), (0x10000, 0xBB)];
    let two: &[(u32, u8)] = &[(0, 0xAA), (1, 0xBB)];
    let high: &[(u32, u8)] = &[(0x20000, 0x55)];
    let later: &[(u32, u8)] = &[(0, 2), (1, 1)];
    let rows: [(u32, &[u8], EmitsAll<'_>); 17] = [
        (
            4,
            b":0400000001020304F2\n:00000001FF",
            Ok((four, Ending::Ended)),
        ),
        (
            4,
            b":0400000001020304F3\n:00000001FF\n",
            Err(RecordFault::BadSum(1)),
        ),
        (
            131_072,
            b":020000021000EC\n:02FFFF00AABB9B\n:00000001FF\n",
            Ok((wrapped, Ending::Ended)),
        ),
        (
            131_072,
            b":020000040001F9\n:02FFFF00AABB9B\n",
            Err(RecordFault::OutOfRange(2, 0x20000)),
        ),
        (
            32_768,
            b":020000040001F9\n:0100000055AA\n",
            Err(RecordFault::OutOfRange(2, 0x10000)),
        ),
        (4, b":0400000001020304F2\n", Ok((four, Ending::NoEnd))),
        (
            4,
            b":0400000001020304F2\n:00000001FF\nrubbish",
            Ok((four, Ending::Ended)),
        ),
        (2, b"\r\n:02000000aabb99  \r\n", Ok((two, Ending::NoEnd))),
        (2, b"\n\n:0100000011EF\n", Err(RecordFault::BadSum(3))),
        (
            262_144,
            b":020000040002F8\n:0100000055AA\n:00000001FF\n",
            Ok((high, Ending::Ended)),
        ),
        (
            32_768,
            b":020000040002F8\n:0100000055AA\n",
            Err(RecordFault::OutOfRange(2, 0x20000)),
        ),
        (
            4,
            b":0400000300003800C1\n:0400000001020304F2\n:04000005000038FFC0\n",
            Ok((four, Ending::NoEnd)),
        ),
        (4, b":00000006FA\n", Err(RecordFault::BadType(1))),
        (
            4,
            b":0400000001020304F2\nrubbish\n:00000001FF\n",
            Err(RecordFault::BadMark(2)),
        ),
        (4, b":0400000001020304G", Err(RecordFault::BadDigit(1))),
        (4, b":0100000155A9", Err(RecordFault::BadLength(1))),
        (
            2,
            b":020000000101FC\n:0100000002FD\n:00000001FF",
            Ok((later, Ending::Ended)),
        ),
    ];
    for (size, text, want) in rows {
        emits(&rt, alloc, Kind::Ihex, size, text, want);
    }
}

#[test]
fn reads_srec(rt: HostRuntime) {
    let alloc = rt.alloc();
    let four: &[(u32, u8)] = &[(0, 1), (1, 2), (2, 3), (3, 4)];
    let high: &[(u32, u8)] = &[(0x10000, 0xAA)];
    let rows: [(u32, &[u8], EmitsAll<'_>); 11] = [
        (
            4,
            b"S107000001020304EE\nS9030000FC\n",
            Ok((four, Ending::Ended)),
        ),
        (
            4,
            b"S107000001020304EE\nS5030002FA\n",
            Err(RecordFault::BadCount(2)),
        ),
        (
            4,
            b"S00600004844521B\nS107000001020304EE\nS5030001FB\n",
            Ok((four, Ending::NoEnd)),
        ),
        (
            4,
            b"S107000001020304EE\nS604000001FA\nS9030000FC",
            Ok((four, Ending::Ended)),
        ),
        (
            131_072,
            b"S205010000AA4F\nS804000000FB\n",
            Ok((high, Ending::Ended)),
        ),
        (
            131_072,
            b"S30600010000AA4E\nS70500000000FA\n",
            Ok((high, Ending::Ended)),
        ),
        (
            4,
            b"S107000001020304EE\nS7030000FC\n",
            Err(RecordFault::BadLength(2)),
        ),
        (
            3,
            b"S107000001020304EE\n",
            Err(RecordFault::OutOfRange(1, 3)),
        ),
        (4, b"S4030000FC\n", Err(RecordFault::BadType(1))),
        (4, b"S100", Err(RecordFault::BadLength(1))),
        (
            4,
            b"S107000001020304EF\nS9030000FC\n",
            Err(RecordFault::BadSum(1)),
        ),
    ];
    for (size, text, want) in rows {
        emits(&rt, alloc, Kind::Srec, size, text, want);
    }
}

/// A small file is cut off after each of its bytes.
#[test]
fn reads_what_is_cut_short(rt: HostRuntime) {
    let alloc = rt.alloc();
    let text = b":0400000001020304F2\n:00000001FF\n";
    let four: &[(u32, u8)] = &[(0, 1), (1, 2), (2, 3), (3, 4)];
    for k in 0..text.len() + 1 {
        let want: EmitsAll<'_> = match k {
            0 => Ok((&[], Ending::NoEnd)),
            1..=18 => Err(RecordFault::BadLength(1)),
            19 | 20 => Ok((four, Ending::NoEnd)),
            21..=30 => Err(RecordFault::BadLength(2)),
            _ => Ok((four, Ending::Ended)),
        };
        emits(&rt, alloc, Kind::Ihex, 4, &text[..k], want);
    }
}

/// A line may have at most 600 bytes, including the blanks at its end.
#[test]
fn reads_long_lines(rt: HostRuntime) -> Result<(), Fail> {
    let alloc = rt.alloc();
    let record = b":0400000001020304F2";
    let four: &[(u32, u8)] = &[(0, 1), (1, 2), (2, 3), (3, 4)];
    for (len, want) in [
        (600, Ok((four, Ending::NoEnd))),
        (601, Err(RecordFault::LineTooLong(1))),
    ] {
        let mut text = record.to_vec(alloc)?;
        for _ in record.len()..len {
            text.push(b' ')?;
        }
        text.push(b'\n')?;
        emits(&rt, alloc, Kind::Ihex, 4, text.as_slice(), want);
    }
    // lines after an end record are not read
    let mut text = b":00000001FF\n".to_vec(alloc)?;
    for _ in 0..601 {
        text.push(b' ')?;
    }
    emits(&rt, alloc, Kind::Ihex, 1, text.as_slice(), Ok((&[], Ending::Ended)));
    Ok(())
}

#[test]
fn returns_a_fault_by_its_line(rt: HostRuntime) -> Result<(), Fail> {
    let mut reader = RecordReader::new(rt.alloc(), Kind::Ihex, 4)?;
    assert_eq!(rt; reader.feed(b":0400000001020304F3"), Ok(()));
    assert_eq!(rt; reader.fed(), 19);
    if reader.fed() < 100 {
        let fault = reader.feed(b"\nx\ny\n");
        assert_eq!(rt; fault, Err(RecordFault::BadSum(1)));
        assert_eq!(rt; RecordFault::BadSum(1).number(), 4);
        assert_eq!(rt; RecordFault::BadSum(1).line(), Some(1));
        assert_eq!(rt; reader.fed(), 19);
    }
    if reader.fed() < 100 {
        assert_eq!(rt; reader.feed(b""), Err(RecordFault::Failed));
    }
    assert_eq!(rt; reader.finish().err(), Some(RecordFault::Failed));
    Ok(())
}

#[test]
fn prints_faults(rt: HostRuntime) -> Result<(), Fail> {
    for (fault, want) in [
        (RecordFault::BadMark(1), "line 1: no record mark"),
        (RecordFault::BadDigit(2), "line 2: bad digit"),
        (RecordFault::BadLength(3), "line 3: bad length"),
        (RecordFault::BadSum(4), "line 4: bad checksum"),
        (RecordFault::BadType(5), "line 5: bad record type"),
        (
            RecordFault::OutOfRange(2, 0x10000),
            "line 2: address 00010000 out of range",
        ),
        (RecordFault::LineTooLong(7), "line 7: line too long"),
        (RecordFault::BadCount(8), "line 8: bad record count"),
        (RecordFault::Failed, "the reader met a fault before"),
        (RecordFault::Memory, "out of memory"),
        (RecordFault::TooLong, "the file is too long"),
    ] {
        let text = format!(in rt.alloc(); "{fault}")?;
        assert_eq!(rt; text.as_str(), want);
    }
    Ok(())
}

#[test]
fn detects(rt: HostRuntime) {
    let rows: [(&[u8], Found); 8] = [
        (b"  \t\r\n\n:0400000001020304F2\n", Found::Ihex),
        (b":04", Found::Raw),
        (b":0400000G01", Found::Raw),
        (b" :0400000001020304F2", Found::Raw),
        (b"S10700000102", Found::Srec),
        (b"S1070000010", Found::Srec),
        (b"\x7fELF", Found::Elf),
        (b"", Found::Raw),
    ];
    for (prefix, want) in rows {
        assert_eq!(rt; detect(prefix), want);
    }
}

/// The reader agrees with a plain reader of whole texts.
#[test]
fn agrees_with_the_plain_reader(rt: HostRuntime) -> Result<(), Fail> {
    let alloc = rt.alloc();
    let texts: [(Kind, &[u8]); 11] = [
        (Kind::Ihex, b""),
        (Kind::Ihex, b" \t\n:0100000011EE\x0c\n"),
        (Kind::Ihex, b"\n\r\n \n"),
        (
            Kind::Ihex,
            b":020000021000EC\r\n:02FFFF00AABB9B\r\n:00000001FF\r\nx\n",
        ),
        (
            Kind::Ihex,
            b":0100000011EE\n:0100000022DD\n:01000500 11E9\n",
        ),
        (
            Kind::Ihex,
            b":0100000011EE\n:020000040001F9\n:01FFFF0033CD\n:0100000044BB",
        ),
        (Kind::Ihex, b":0200040001020304F2\n"),
        (
            Kind::Srec,
            b"S00600004844521B\n\nS107000001020304EE\nS10500020A0BE3\nS5030002FA\nS9030000FC\n",
        ),
        (Kind::Srec, b"S107000001020304EE\nS10500020A0BE4\n"),
        (Kind::Srec, b"s107000001020304EE\n"),
        (Kind::Srec, b"S107000001020304EE\nS503FFFFFE\n"),
    ];
    for (kind, text) in texts {
        for k in 0..text.len() + 1 {
            for size in [3, 300] {
                let want = slow_read(alloc, kind, size, &text[..k])?;
                for cut in CUTS {
                    let outcome = read_cut(alloc, kind, size, &text[..k], cut);
                    assert!(rt;
                        want.is_same(&outcome),
                        "{k} bytes of {kind:?} in pieces of {cut}"
                    );
                }
            }
        }
    }
    Ok(())
}

#[test]
fn a_size_is_returned_without_an_image(rt: HostRuntime) {
    let firmware = b":020000040800F2\n:020010000102EB\n:00000001FF\n";
    assert_eq!(rt; needed_size(Kind::Ihex, firmware), Ok(0x0800_0012));
    assert_eq!(rt; needed_size(Kind::Ihex, b""), Ok(0));
    assert_eq!(rt; needed_size(Kind::Ihex, b":00000001FF\nno record\n"), Ok(0));
    assert_eq!(rt;
        needed_size(Kind::Srec, b"S107000001020304EE\nS9030000FC"),
        Ok(4)
    );
    // the byte with the highest address isn't the last one
    assert_eq!(rt;
        needed_size(Kind::Ihex, b":0100200001DE\n:0100000002FD\n"),
        Ok(0x21)
    );
    // the record wraps to the beginning of its segment
    assert_eq!(rt;
        needed_size(Kind::Ihex, b":020000021000EC\n:02FFFF000A0BEB\n"),
        Ok(0x2_0000)
    );
    // the last address that a memory can have, and the one after it
    assert_eq!(rt;
        needed_size(Kind::Srec, b"S306FFFFFFFE11ED\n"),
        Ok(0xFFFF_FFFF)
    );
    let past = Err(RecordFault::OutOfRange(1, 0xFFFF_FFFF));
    assert_eq!(rt; needed_size(Kind::Srec, b"S306FFFFFFFF11EC\n"), past);
    let sum = Err(RecordFault::BadSum(2));
    assert_eq!(rt; needed_size(Kind::Ihex, b"\n:0400000001020304F3\n"), sum);
}

#[test]
fn readers_and_writers_return_where_they_are(rt: HostRuntime) -> Result<(), Fail> {
    let alloc = rt.alloc();
    let record = read_record(Kind::Ihex, b":0400100001020304E2")?;
    let shown = format!(in alloc; "{record:?}")?;
    assert_eq!(rt;
        shown.as_str(),
        "Record { record_type: 0, address: 16, bytes: [1, 2, 3, 4] }"
    );
    let mut reader = RecordReader::new(alloc, Kind::Ihex, 32)?;
    reader.feed(b":0400100001020304E2")?;
    let shown = format!(in alloc; "{reader:?}")?;
    assert_eq!(rt;
        shown.as_str(),
        "RecordReader { kind: Ihex, fed: 19, failed: false, .. }"
    );
    let (image, _) = reader.finish()?;
    let shown = format!(in alloc; "{:?}", Writer::new(Kind::Srec, &image))?;
    assert_eq!(rt; shown.as_str(), "Writer { kind: Srec, addr: 0, ended: false, .. }");
    Ok(())
}
