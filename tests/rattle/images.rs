//! Worked examples, and a comparison of images with an ordered map, which is slow and plain.

use arrayvec::ArrayVec;
use avr_image::{Base, Image, ImageFault, ListWriter, Pieces, RawReader, parse_immediate};
use std::collections::BTreeMap;
use std::io::{self, ErrorKind, Write};
use std::test::Fail;

#[test]
fn runs_cross_the_words_of_present_bits(rt: HostRuntime) -> Result<(), Fail> {
    let mut image = Image::new(rt.alloc(), 131072)?;
    assert_eq!(rt; image.first_from(0), None);
    assert_eq!(rt; image.len(), 0);
    image.put(63, 1)?;
    image.put(64, 2)?;
    assert_eq!(rt; image.run_from(63, 65), 65);
    assert_eq!(rt; image.run_from(63, 64), 64);
    assert_eq!(rt; image.run_from(62, 65), 62);
    assert_eq!(rt; image.first_from(64), Some(64));
    assert_eq!(rt; image.first_from(65), None);
    image.put(131071, 7)?;
    assert_eq!(rt; image.run_from(131071, 131072), 131072);
    assert!(rt; image.holds_any(131071, u32::MAX) && image.holds_any(0, 64));
    assert!(rt; !image.holds_any(u32::MAX, u32::MAX) && !image.holds_any(63, 0));
    assert_eq!(rt; image.put(131072, 7), Err(ImageFault::OutOfRange(131072)));
    assert_eq!(rt; image.len(), 3);
    Ok(())
}

#[test]
fn an_image_and_a_fault_show_what_they_are(rt: HostRuntime) -> Result<(), Fail> {
    let alloc = rt.alloc();
    let mut image = Image::new(alloc, 64)?;
    image.put_slice(8, &[1, 2])?;
    let shown = format!(in alloc; "{image:?}")?;
    assert_eq!(rt; shown.as_str(), "Image { size: 64, len: 2, .. }");
    for (fault, want) in [
        (ImageFault::OutOfRange(64), "address 00000040 out of range"),
        (ImageFault::BadNumber(2), "value 2: not a number"),
        (ImageFault::TooLarge(3), "value 3: above 255"),
        (ImageFault::Failed, "the reader has failed before"),
        (ImageFault::Memory, "out of memory"),
        (ImageFault::OtherSize, "the images are of different sizes"),
    ] {
        let text = format!(in alloc; "{fault}")?;
        assert_eq!(rt; text.as_str(), want);
    }
    Ok(())
}

#[test]
fn images_are_compared(rt: HostRuntime) -> Result<(), Fail> {
    let alloc = rt.alloc();
    let mut image = Image::new(alloc, 64)?;
    assert!(rt; image == Image::new(alloc, 64)?);
    assert!(rt; image != Image::new(alloc, 65)?);
    image.put(8, 0xFF)?;
    assert!(rt; image != Image::new(alloc, 64)?);
    assert_eq!(rt; image, image.try_clone(alloc)?);
    Ok(())
}

#[test]
fn readers_and_writers_return_where_they_are(rt: HostRuntime) -> Result<(), Fail> {
    let alloc = rt.alloc();
    let mut reader = RawReader::new(alloc, 4)?;
    reader.feed(&[1, 2])?;
    let shown = format!(in alloc; "{reader:?}")?;
    assert_eq!(rt; shown.as_str(), "RawReader { fed: 2, failed: false, .. }");
    let image = reader.finish()?;
    let mut runs = image.runs();
    let _ = runs.next();
    let shown = format!(in alloc; "{runs:?}")?;
    assert_eq!(rt; shown.as_str(), "Runs { addr: 2, .. }");
    let writer = ListWriter::new(Base::Hex, &[1, 2]);
    let shown = format!(in alloc; "{writer:?}")?;
    assert_eq!(rt;
        shown.as_str(),
        "ListWriter { base: Hex, left: 2, ended: false, .. }"
    );
    Ok(())
}

/// Returns the least key that is `addr` or above.
fn first_key(map: &BTreeMap<u32, u8>, addr: u32) -> Option<u32> {
    for (key, _) in map {
        if *key >= addr {
            return Some(*key);
        }
    }
    None
}

/// Returns the end of the run of keys that begins at `addr`, at most `end`.
fn run_of_keys(map: &BTreeMap<u32, u8>, addr: u32, end: u32) -> u32 {
    for at in addr..end {
        if !map.contains_key(&at) {
            return at;
        }
    }
    end
}

#[test]
fn an_image_is_as_an_ordered_map(rt: HostRuntime) -> Result<(), Fail> {
    let mut image = Image::new(rt.alloc(), 190)?;
    let mut map = BTreeMap::new(rt.alloc());
    let mut seed: u32 = 1;
    for _ in 0..60 {
        seed = seed.wrapping_mul(1103515245).wrapping_add(12345);
        let addr = (seed >> 16) % 220;
        let byte = (seed % 251) as u8;
        if image.put(addr, byte).is_ok() {
            map.insert(addr, byte)?;
        }
        let span = [byte; 5];
        if image.put_slice(addr / 2, &span).is_ok() {
            for i in 0..5 {
                map.insert(addr / 2 + i, byte)?;
            }
        }
    }
    assert_eq!(rt; image.len() as usize, map.len());
    let mut of_runs = Image::new(rt.alloc(), 190)?;
    for (addr, bytes) in image.runs() {
        of_runs.put_slice(addr, bytes)?;
    }
    let mut page = [0; 32];
    for addr in 0..200 {
        assert_eq!(rt; image.get(addr), map.get(&addr).copied(), "at {addr}");
        assert_eq!(rt; of_runs.get(addr), image.get(addr), "of runs at {addr}");
        assert_eq!(rt;
            image.first_from(addr),
            first_key(&map, addr),
            "from {addr}"
        );
        assert_eq!(rt;
            image.run_from(addr, 200),
            run_of_keys(&map, addr, 200),
            "run from {addr}"
        );
        for count in [0, 1, 5, 64, 300] {
            let wanted = first_key(&map, addr).is_some_and(|key| key < addr + count);
            assert_eq!(rt; image.holds_any(addr, count), wanted, "{count} from {addr}");
        }
        image.fill(addr, &mut page);
        for i in 0..32 {
            let want = map.get(&(addr + i)).copied().unwrap_or(255);
            assert_eq!(rt; page[i as usize], want, "{i} behind {addr}");
        }
    }
    Ok(())
}

#[test]
fn a_raw_file_longer_than_the_memory_fails(rt: HostRuntime) -> Result<(), Fail> {
    let mut reader = RawReader::new(rt.alloc(), 2)?;
    assert_eq!(rt; reader.feed(&[1, 2, 3]), Err(ImageFault::OutOfRange(2)));
    assert_eq!(rt; reader.feed(&[]), Err(ImageFault::Failed));
    let mut reader = RawReader::new(rt.alloc(), 3)?;
    reader.feed(&[1])?;
    reader.feed(&[255])?;
    let image = reader.finish()?;
    assert_eq!(rt; image.len(), 2);
    assert_eq!(rt; image.get(1), Some(255));
    Ok(())
}

#[test]
fn values_of_every_base_are_read(rt: HostRuntime) -> Result<(), Fail> {
    let image = parse_immediate(rt.alloc(), "0x12,0b101 017 0", 5)?;
    let mut bytes = [0; 5];
    image.fill(0, &mut bytes);
    assert_eq!(rt; bytes.as_slice(), [0x12, 0x05, 0x0F, 0x00, 0xFF].as_slice());
    assert_eq!(rt; image.len(), 4);
    for (text, size, want) in [
        ("08", 5, ImageFault::BadNumber(1)),
        ("0x", 5, ImageFault::BadNumber(1)),
        ("1,256", 5, ImageFault::TooLarge(2)),
        ("1,2", 1, ImageFault::OutOfRange(1)),
        (",", 1, ImageFault::BadNumber(1)),
        ("x1", 1, ImageFault::BadNumber(1)),
        ("", 1, ImageFault::BadNumber(1)),
        ("0XFF 0B2", 5, ImageFault::BadNumber(2)),
        ("99999999999999999999", 5, ImageFault::TooLarge(1)),
    ] {
        match parse_immediate(rt.alloc(), text, size) {
            Ok(_) => assert!(rt; false, "{text:?} was read"),
            Err(fault) => assert_eq!(rt; fault, want, "of {text:?}"),
        }
    }
    Ok(())
}

/// Joins the pieces of a list of numbers.
fn joined(rt: &HostRuntime, base: Base, bytes: &[u8]) -> Result<Vec<u8>, Fail> {
    let mut writer = ListWriter::new(base, bytes);
    let mut piece = ArrayVec::new();
    let mut text = Vec::new(rt.alloc());
    for _ in 0..40 {
        if !writer.next_piece(&mut piece) {
            break;
        }
        text.extend_from_slice(piece.as_slice())?;
    }
    Ok(text)
}

#[test]
fn lists_are_written_in_every_base(rt: HostRuntime) -> Result<(), Fail> {
    let bytes = [0, 7, 8, 255];
    for (base, want) in [
        (Base::Dec, "0,7,8,255\n"),
        (Base::Hex, "0x0,0x7,0x8,0xff\n"),
        (Base::Oct, "0,7,010,0377\n"),
        (Base::Bin, "0b0,0b111,0b1000,0b11111111\n"),
    ] {
        let text = joined(&rt, base, &bytes)?;
        assert_eq!(rt; text.as_slice(), want.as_bytes());
        assert_eq!(rt; joined(&rt, base, &[])?.as_slice(), b"\n".as_slice());
    }
    let long = joined(&rt, Base::Bin, &[255; 100])?;
    assert_eq!(rt; long.len(), 1100);
    Ok(())
}

/// A writer that counts its calls. Its second call fails.
#[derive(Drop)]
struct FailsOnce {
    calls: u32,
}

impl Write for FailsOnce {
    fn write(&mut self, bytes: &[u8]) -> io::Result<usize> {
        self.calls = self.calls.saturating_add(1);
        if self.calls == 2 {
            return Err(io::Error::from(ErrorKind::BrokenPipe));
        }
        Ok(bytes.len())
    }

    fn flush(&mut self) -> io::Result<()> {
        Ok(())
    }
}

#[test]
fn nothing_is_written_after_a_failure(rt: HostRuntime) {
    let mut out = FailsOnce { calls: 0 };
    let written = ListWriter::new(Base::Dec, &[255; 100]).write_to(&mut out);
    assert!(rt; written.is_err_and(|error| error.kind() == ErrorKind::BrokenPipe));
    assert_eq!(rt; out.calls, 2);
}
