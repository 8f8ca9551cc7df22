//! Worked operations: the frames by which a host writes, reads and verifies memories of an ATmega328P.
ghost use Rattle.std.specs.Prelude.{◌≡◌, length, IfOk};
ghost use Rattle.avr_part.specs.Part.{size_of};

use arrayvec::ArrayVec;
use avr_image::{Image, ImageFault};
use avr_part::{Mem, Part, PartFault, Parts};
use std::alloc::{AllocError, Global};
use std::process::Abort;
use std::test::Fail;
use stk_frame::{Command, put_frame};
use stk_host::{Host, HostFault, Item, TapeLink};

fn part() -> Result<Part, PartFault> {
    Parts::none().find("m328p")
}

/// Returns an image of a memory with this byte at address 0.
fn image(alloc: Global, part: &Part, mem: Mem, byte: u8) -> Result<Image, ImageFault>
    ensures { IfOk result (λ image. length image ≡ size_of mem part.now) }
{
    let mut image = Image::new(alloc, part.size_of(mem))?;
    image.put(0, byte)?;
    Ok(image)
}

/// Returns a link that replies to the first frames with these bodies.
fn replying(alloc: Global, bodies: &[&[u8]]) -> Result<TapeLink, AllocError> {
    let mut items = Vec::new(alloc);
    let mut seq: u8 = 1;
    for body in bodies {
        if !body.is_empty() && body.len() <= 275 {
            let mut frame = ArrayVec::new();
            put_frame(seq, body, &mut frame);
            for byte in frame.as_slice() {
                items.push(Item::Byte(*byte))?;
            }
        }
        seq = seq.wrapping_add(1);
    }
    Ok(TapeLink::new(alloc, items, 281))
}

/// An erase, then two runs of bytes. The byte between them is not written.
const RUNS: [u8; 69] = [
    0x1B, 0x01, 0x00, 0x07, 0x0E, 0x12, 0x09, 0x00, 0xAC, 0x80, 0x00, 0x00, 0x24, 0x1B, 0x02, 0x00,
    0x05, 0x0E, 0x06, 0x00, 0x00, 0x00, 0x00, 0x14, 0x1B, 0x03, 0x00, 0x0B, 0x0E, 0x15, 0x00, 0x01,
    0xC1, 0x0A, 0xC1, 0xC2, 0xA0, 0xFF, 0xFF, 0x11, 0x70, 0x1B, 0x04, 0x00, 0x05, 0x0E, 0x06, 0x00,
    0x00, 0x00, 0x02, 0x10, 0x1B, 0x05, 0x00, 0x0B, 0x0E, 0x15, 0x00, 0x01, 0xC1, 0x0A, 0xC1, 0xC2,
    0xA0, 0xFF, 0xFF, 0x33, 0x54,
];

#[test]
fn erases_and_writes_runs_of_eeprom(rt: HostRuntime) -> Result<(), Fail> {
    let part = part()?;
    let mut image = image(rt.alloc(), &part, Mem::Eeprom, 0x11)?;
    image.put(2, 0x33)?;
    let bodies: &[&[u8]] = &[
        &[0x12, 0x00],
        &[0x06, 0x00],
        &[0x15, 0x00],
        &[0x06, 0x00],
        &[0x15, 0x00],
    ];
    let mut link = replying(rt.alloc(), bodies)?;
    let mut host = Host::new(part);
    assert!(rt; host.erase(&mut link) == Ok(()));
    assert!(rt; host.write(&mut link, Mem::Eeprom, &image) == Ok(()));
    assert_eq!(rt; link.sent(), RUNS.as_slice());
    Ok(())
}

#[test]
fn reads_a_fuse_and_finds_it_different(rt: HostRuntime) -> Result<(), Fail> {
    let part = part()?;
    let image = image(rt.alloc(), &part, Mem::Lfuse, 0xE2)?;
    let bodies: &[&[u8]] = &[&[0x18, 0x00, 0x62, 0x00], &[0x18, 0x00, 0x62, 0x00]];
    let mut link = replying(rt.alloc(), bodies)?;
    let mut host = Host::new(part);
    let mut bytes = Vec::new(rt.alloc());
    let differs = HostFault::Differs(Mem::Lfuse, 0, 0xE2, 0x62);
    assert!(rt; host.verify(rt.alloc(), &mut link, Mem::Lfuse, &image) == Err(differs));
    assert!(rt; host.read(&mut link, Mem::Lfuse, &mut bytes) == Ok(()));
    assert_eq!(rt; bytes.as_slice(), [0x62].as_slice());
    assert!(rt; host.read(&mut link, Mem::Lfuse, &mut bytes) == Err(HostFault::LinkEnded));
    assert!(rt; bytes.is_empty());
    Ok(())
}

/// Returns a link that gives these bytes, then ends.
fn giving(alloc: Global, digits: &str) -> Result<TapeLink, Fail> {
    let mut items = Vec::new(alloc);
    for byte in hex::decode(alloc, digits)? {
        items.push(Item::Byte(byte))?;
    }
    Ok(TapeLink::new(alloc, items, 281))
}

/// A fuse differs, or the reading of it is refused. One frame is sent, number 1.
#[test]
fn a_fuse_is_verified_by_a_new_host(rt: HostRuntime) -> Result<(), Fail> {
    let alloc = rt.alloc();
    let part = part()?;
    let image = image(alloc, &part, Mem::Lfuse, 0xE2)?;
    let rows = [
        (
            "1B0100040E180062006A",
            HostFault::Differs(Mem::Lfuse, 0, 0xE2, 0x62),
        ),
        ("1B0100040E1880000088", HostFault::Refused(0x18, 0x80)),
    ];
    for (reply, fault) in rows {
        let mut link = giving(alloc, reply)?;
        let verified = Host::new(part.copied()).verify(alloc, &mut link, Mem::Lfuse, &image);
        assert!(rt; verified == Err(fault));
        assert_eq!(rt; link.sent(), b"\x1B\x01\x00\x06\x0E\x18\x04\x50\x00\x00\x00\x5E".as_slice());
    }
    Ok(())
}

#[test]
fn the_signature_is_read_only(rt: HostRuntime) -> Result<(), Fail> {
    let alloc = rt.alloc();
    let part = part()?;
    let mut link = giving(alloc, "")?;
    let written = Host::new(part).write(&mut link, Mem::Signature, &Image::new(alloc, 3)?);
    assert!(rt; written == Err(HostFault::ReadOnly(Mem::Signature)));
    assert!(rt; link.sent().is_empty());
    Ok(())
}

/// Puts a frame at the end of these bytes.
fn push_frame(bytes: &mut Vec<u8>, seq: u8, body: &[u8]) -> Result<(), Fail> {
    let mut frame = ArrayVec::new();
    put_frame(seq, body, &mut frame);
    Ok(bytes.extend_from_slice(frame.as_slice())?)
}

/// Four blocks of 256 bytes, each after its address.
#[test]
fn an_eeprom_is_read_in_eight_frames(rt: HostRuntime) -> Result<(), Fail> {
    let alloc = rt.alloc();
    let mut replies = Vec::new(alloc);
    let mut wanted = Vec::new(alloc);
    let mut block_reply = [0xFF; 259];
    block_reply[0] = 0x16;
    block_reply[1] = 0;
    block_reply[258] = 0;
    for block in 0..4u8 {
        push_frame(&mut replies, 2 * block + 1, &[0x06, 0x00])?;
        push_frame(&mut replies, 2 * block + 2, &block_reply)?;
        push_frame(&mut wanted, 2 * block + 1, &[0x06, 0x00, 0x00, block, 0x00])?;
        push_frame(&mut wanted, 2 * block + 2, &[0x16, 0x01, 0x00, 0xA0])?;
    }
    let mut items = Vec::new(alloc);
    for byte in replies {
        items.push(Item::Byte(byte))?;
    }
    let mut link = TapeLink::new(alloc, items, 281);
    let mut bytes = Vec::new(alloc);
    assert!(rt; Host::new(part()?).read(&mut link, Mem::Eeprom, &mut bytes) == Ok(()));
    assert_eq!(rt; bytes.as_slice(), [0xFFu8; 1024].as_slice());
    assert!(rt; link.sent() == wanted.as_slice());
    Ok(())
}

#[test]
fn after_the_end_no_call_sends_anything(rt: HostRuntime) -> Result<(), Fail> {
    let alloc = rt.alloc();
    let mut host = Host::new(part()?);
    let mut link = giving(alloc, "")?;
    let ended = Err(HostFault::LinkEnded);
    assert!(rt; host.erase(&mut link) == ended);
    let sent = link.sent().len();
    let image = Image::new(alloc, 1)?;
    let mut bytes = Vec::new(alloc);
    assert!(rt; host.open(&mut link, true) == Err(HostFault::LinkEnded));
    assert!(rt; host.erase(&mut link) == ended);
    assert!(rt; host.write(&mut link, Mem::Lfuse, &image) == ended);
    assert!(rt; host.write(&mut link, Mem::Signature, &image) == ended);
    assert!(rt; host.read(&mut link, Mem::Lfuse, &mut bytes) == ended);
    assert!(rt; host.verify(alloc, &mut link, Mem::Lfuse, &image) == ended);
    assert!(rt; host.close(&mut link) == ended);
    assert_eq!(rt; link.sent().len(), sent);
    Ok(())
}

/// Two pages with a byte each, at the word addresses 0 and 40.
#[test]
fn two_pages_are_written(rt: HostRuntime) -> Result<(), Fail> {
    let alloc = rt.alloc();
    let part = part()?;
    let mut image = image(alloc, &part, Mem::Flash, 0x11)?;
    image.put(0x82, 0x22)?;
    let replies = "1B0100020E0600101B0200020E1300061B0300020E0600121B0400020E130000";
    let mut link = giving(alloc, replies)?;
    assert!(rt; Host::new(part).write(&mut link, Mem::Flash, &image) == Ok(()));
    let mut wanted = Vec::new(alloc);
    let mut frame = ArrayVec::new();
    for (seq, address, place, byte) in [(1u8, 0u8, 0usize, 0x11u8), (3, 0x40, 2, 0x22)] {
        push_frame(&mut wanted, seq, &[0x06, 0x00, 0x00, 0x00, address])?;
        let mut page = [0xFF; 128];
        page[place] = byte;
        Command::program_page(&page).put_frame(seq + 1, &mut frame);
        wanted.extend_from_slice(frame.as_slice())?;
    }
    assert!(rt; link.sent() == wanted.as_slice());
    Ok(())
}
