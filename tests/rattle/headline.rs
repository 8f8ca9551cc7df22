//! Calls whose contracts are the headline: their conditions can be met.

use crate::support::{Over, desk_with, fates, run_wired_on, settings_for};
use avr_tool::{Fate, Item, MemDesk, Settings, StreamLink, SystemDesk, TapeLink, run};
use std::alloc::Global;
use std::test::Fail;
use crate::data::digits::{REPLIES, LEAVE, OPENING};

/// What a run sent, wrote to standard output and printed as messages, and its status.
#[derive(Drop)]
struct Passed {
    sent: Vec<u8>,
    output: Vec<u8>,
    messages: Vec<u8>,
    status: u8,
}

/// Runs at the kinds of desk and link that the program has, over a reader of these replies and these writers.
fn play<'a>(
    rt: &'a HostRuntime,
    settings: &Settings,
    replies: &'a [u8],
    sent: &'a mut Vec<u8>,
    output: &'a mut Vec<u8>,
    messages: &'a mut Vec<u8>,
) -> u8 {
    let mut desk = SystemDesk::new(rt, output, messages);
    let mut link = StreamLink::new(replies, sent);
    run(rt.alloc(), settings, &mut desk, &mut link)
}

/// Runs a session over these replies, with writers in memory.
fn run_over_streams(rt: &HostRuntime, replies: &[u8]) -> Result<Passed, Fail> {
    let alloc = rt.alloc();
    let settings = settings_for(alloc, &["-p", "m328p"])?;
    let mut sent = Vec::new(alloc);
    let mut output = Vec::new(alloc);
    let mut messages = Vec::new(alloc);
    let status = play(
        rt,
        &settings,
        replies,
        &mut sent,
        &mut output,
        &mut messages,
    );
    Ok(Passed {
        sent,
        output,
        messages,
        status,
    })
}

#[test]
fn the_desk_and_the_link_of_the_program(rt: HostRuntime) -> Result<(), Fail> {
    let alloc = rt.alloc();
    let replies = hex::decode(alloc, REPLIES)?;
    let passed = run_over_streams(&rt, replies.as_slice())?;
    assert_eq!(rt; passed.status, 0);
    let mut frames = hex::decode(alloc, OPENING)?;
    frames.extend_from_slice(hex::decode(alloc, LEAVE)?.as_slice())?;
    assert!(rt; passed.sent == frames);
    assert!(rt; passed.output.is_empty());
    assert!(rt;
        passed.messages.as_slice()
            == b"avrstk: device signature = 1E 95 0F\navrstk: done\n".as_slice()
    );
    Ok(())
}

/// If the reader ends after two replies, the third command is the last one sent.
#[test]
fn a_reader_that_ends(rt: HostRuntime) -> Result<(), Fail> {
    let alloc = rt.alloc();
    let replies = hex::decode(alloc, REPLIES)?;
    let passed = run_over_streams(&rt, replies.get(..25).unwrap_or(&[]))?;
    assert_eq!(rt; passed.status, 1);
    let frames = hex::decode(alloc, OPENING)?;
    assert!(rt; passed.sent.as_slice() == frames.get(..37).unwrap_or(&[]));
    assert!(rt; passed.messages.as_slice() == b"avrstk: error: link ended\n".as_slice());
    Ok(())
}

/// The replies to a session that opens, reads the low fuse (62) twice, and ends.
const FUSE_REPLIES: &str =
    "1B01000B0E01000853544B3530305F32021B0200020E1000051B0300040E1B001E00171B0400040E1B0095009B1B0500040E1B000F00001B0600040E180062006D1B0700040E180062006C1B0800020E11000E";

/// The frames that follow the opening of that session.
const FUSE_FRAMES: &str = "1B0600060E180450000000591B0700060E180450000000581B0800030E1101010F";

/// The arguments of a run that compares a file with the fuse, then overwrites the file.
const FUSE_WORDS: [&str; 6] = ["-p", "m328p", "-U", "lfuse:v:low:r", "-U", "lfuse:r:low:h"];

/// What that run prints.
const FUSE_MESSAGES: &str =
    "avrstk: device signature = 1E 95 0F\navrstk: lfuse: 1 bytes verified\navrstk: lfuse: 1 bytes read\navrstk: done\n";

/// Runs these arguments with a file `low` of one byte, over a tape of these replies.
fn run_over_tape(
    alloc: Global,
    words: &[&str],
    low: u8,
    replies: &[u8],
) -> Result<Over<MemDesk, TapeLink>, Fail> {
    let settings = settings_for(alloc, words)?;
    let mut items = Vec::new(alloc);
    for byte in replies {
        items.push(Item::Byte(*byte))?;
    }
    let mut desk = MemDesk::empty(alloc);
    desk.put("low", &[low])?;
    let mut link = TapeLink::new(alloc, items, 281);
    let status = run(alloc, &settings, &mut desk, &mut link);
    Ok(Over { desk, link, status })
}

/// Runs at a desk that has not been called yet, over a reader of these replies and a writer.
fn status_over_streams(
    alloc: Global,
    settings: &Settings,
    desk: &mut MemDesk,
    replies: &[u8],
    sent: &mut Vec<u8>,
) -> u8 {
    let mut streams = StreamLink::new(replies, sent);
    run(alloc, settings, desk, &mut streams)
}

/// Does the same as [`run_over_tape`], over a reader of these replies and a writer in memory.
fn run_over_reader(
    alloc: Global,
    words: &[&str],
    low: u8,
    replies: &[u8],
) -> Result<Over<MemDesk, Vec<u8>>, Fail> {
    let settings = settings_for(alloc, words)?;
    let mut desk = MemDesk::empty(alloc);
    desk.put("low", &[low])?;
    let mut link = Vec::new(alloc);
    let status = status_over_streams(alloc, &settings, &mut desk, replies, &mut link);
    Ok(Over { desk, link, status })
}

/// Returns all frames of the run.
fn fuse_frames(alloc: Global) -> Result<Vec<u8>, Fail> {
    let mut frames = hex::decode(alloc, OPENING)?;
    frames.extend_from_slice(hex::decode(alloc, FUSE_FRAMES)?.as_slice())?;
    Ok(frames)
}

/// The run reads the file as it was, and then overwrites it with the fuse.
#[test]
fn from_bytes_to_bytes(rt: HostRuntime) -> Result<(), Fail> {
    let alloc = rt.alloc();
    let replies = hex::decode(alloc, FUSE_REPLIES)?;
    let over = run_over_tape(alloc, &FUSE_WORDS, 0x62, replies.as_slice())?;
    assert_eq!(rt; over.status, 0);
    assert!(rt; over.link.sent() == fuse_frames(alloc)?.as_slice());
    assert!(rt; over.desk.messages() == FUSE_MESSAGES.as_bytes());
    assert!(rt; over.desk.output().is_empty());
    assert!(rt; over.desk.file("low") == Some(b"0x62\n".as_slice()));
    Ok(())
}

#[test]
fn from_a_reader_to_a_writer(rt: HostRuntime) -> Result<(), Fail> {
    let alloc = rt.alloc();
    let replies = hex::decode(alloc, FUSE_REPLIES)?;
    let over = run_over_reader(alloc, &FUSE_WORDS, 0x62, replies.as_slice())?;
    assert_eq!(rt; over.status, 0);
    assert!(rt; over.link == fuse_frames(alloc)?);
    assert!(rt; over.desk.messages() == FUSE_MESSAGES.as_bytes());
    assert!(rt; over.desk.output().is_empty());
    assert!(rt; over.desk.file("low") == Some(b"0x62\n".as_slice()));
    Ok(())
}

/// The wire to a fresh ATmega328P loses the first frame.
#[test]
fn a_lost_frame_is_sent_again(rt: HostRuntime) -> Result<(), Fail> {
    let alloc = rt.alloc();
    let desk = desk_with(alloc, &[])?;
    let lost = fates(alloc, 0, Fate::LostCommand)?;
    let over = run_wired_on(alloc, "m328p", &["-p", "m328p"], desk, lost)?;
    assert_eq!(rt; over.status, 0);
    assert!(rt;
        over.desk.messages() == b"avrstk: device signature = 1E 95 0F\navrstk: done\n".as_slice()
    );
    assert!(rt;
        over.link.sent().starts_with(
            b"\x1B\x01\x00\x01\x0E\x01\x14\x1B\x02\x00\x01\x0E\x01\x17".as_slice()
        )
    );
    Ok(())
}
