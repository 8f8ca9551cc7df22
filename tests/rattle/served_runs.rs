//! Serving, from settings to status: how it ends, what it reports, and the chip file.
use avr_plan::{Settings, read_settings, read_words};
use avr_desk::MemDesk;
use avr_tool::{serve, serve_for};
use std::alloc::{AllocError, Global};
use std::test::Fail;
use stk_host::{FailingLink, Item, Link, TapeLink};

/// A frame with a command that no programmer knows.
const FRAME: [u8; 7] = [0x1B, 0x09, 0x00, 0x01, 0x0E, 0x05, 0x18];

/// The reply of any programmer to it.
const REPLY: [u8; 8] = [0x1B, 0x09, 0x00, 0x02, 0x0E, 0x05, 0xC9, 0xD2];

/// Returns a tape of the frame, with a timeout before its last byte, and the end.
fn frame_and_end(alloc: Global) -> Result<Vec<Item>, AllocError> {
    let mut items = Vec::new(alloc);
    for byte in &FRAME[..6] {
        items.push(Item::Byte(*byte))?;
    }
    items.push(Item::Silence)?;
    items.push(Item::Byte(FRAME[6]))?;
    items.push(Item::End)?;
    Ok(items)
}

fn settings_to_serve(alloc: Global) -> Result<Settings, Fail> {
    let mut words: Vec<String> = Vec::new(alloc);
    for word in [
        "avrstk", "--serve", "5000", "--chip", "chip.bin", "-p", "m328p",
    ] {
        words.push(String::from_str(alloc, word)?)?;
    }
    let matches = read_words(alloc, words.as_slice())?;
    Ok(read_settings(alloc, &matches)?)
}

/// Serves at this desk and over this link, and returns the status.
fn served<L: Link>(alloc: Global, settings: &Settings, desk: &mut MemDesk, link: &mut L) -> u8 {
    serve(alloc, settings, desk, link)
}

fn saved_size(desk: &MemDesk) -> Option<usize> {
    desk.file("chip.bin").map(|file| file.len())
}

#[test]
fn an_end_that_is_received_saves_the_chip(rt: HostRuntime) -> Result<(), Fail> {
    let alloc = rt.alloc();
    let items = frame_and_end(alloc)?;
    let settings = settings_to_serve(alloc)?;
    let mut link = TapeLink::new(alloc, items, 281);
    let mut desk = MemDesk::empty(alloc);
    assert_eq!(rt; served(alloc, &settings, &mut desk, &mut link), 0);
    assert_eq!(rt; link.sent(), REPLY.as_slice());
    assert_eq!(rt; saved_size(&desk), Some(33_796));
    assert!(rt; desk.messages().is_empty());
    Ok(())
}

#[test]
fn too_many_reads_are_reported_and_the_chip_is_saved(rt: HostRuntime) -> Result<(), Fail> {
    let alloc = rt.alloc();
    let items = vec![in alloc; Item::Silence; 5]?;
    let settings = settings_to_serve(alloc)?;
    let mut link = TapeLink::new(alloc, items, 281);
    let mut desk = MemDesk::empty(alloc);
    assert_eq!(rt; serve_for(alloc, &settings, &mut desk, &mut link, 3), 1);
    let line = "avrstk: error: too many reads\n";
    assert_eq!(rt; desk.messages(), line.as_bytes());
    assert_eq!(rt; saved_size(&desk), Some(33_796));
    Ok(())
}

#[test]
fn a_link_that_fails_is_reported_and_the_chip_is_saved(rt: HostRuntime) -> Result<(), Fail> {
    let alloc = rt.alloc();
    let settings = settings_to_serve(alloc)?;
    let mut link = FailingLink::new(TapeLink::new(alloc, Vec::new(alloc), 281), 1, 5);
    let mut desk = MemDesk::empty(alloc);
    assert_eq!(rt; served(alloc, &settings, &mut desk, &mut link), 1);
    let line = "avrstk: error: link cannot be read\n";
    assert_eq!(rt; desk.messages(), line.as_bytes());
    assert_eq!(rt; saved_size(&desk), Some(33_796));
    Ok(())
}

#[test]
fn a_chip_file_of_another_length_is_not_served(rt: HostRuntime) -> Result<(), Fail> {
    let alloc = rt.alloc();
    let items = frame_and_end(alloc)?;
    let settings = settings_to_serve(alloc)?;
    let mut link = TapeLink::new(alloc, items, 281);
    let mut desk = MemDesk::empty(alloc);
    let short = [7; 100];
    assert!(rt; desk.put("chip.bin", &short).is_ok());
    assert_eq!(rt; served(alloc, &settings, &mut desk, &mut link), 1);
    let line = "avrstk: error: chip.bin: 100 bytes, 33796 expected\n";
    assert_eq!(rt; desk.messages(), line.as_bytes());
    assert!(rt; link.sent().is_empty());
    assert!(rt; desk.file("chip.bin") == Some(&short[..]));
    Ok(())
}
