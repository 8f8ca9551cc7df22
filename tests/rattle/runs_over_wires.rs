//! Worked runs over a wire to a fresh ATmega328P: frames, messages, status and chip, byte for byte.

use crate::data::digits::{LEAVE, OPENING};
use crate::support::{
    Over, desk_with, fates, holds, is_blank, joined, pattern, printed, run_wired_on,
};
use arrayvec::ArrayVec;
use avr_desk::MemDesk;
use avr_part::Mem;
use std::alloc::Global;
use std::process::Abort;
use std::test::Fail;
use stk_emu::{Fate, Fates, Wired};
use stk_frame::{Command, put_frame};

type OverWire = Over<MemDesk, Wired>;

/// The part, and no comparison after writing.
const UNVERIFIED: [&str; 4] = ["-p", "m328p", "-V", "-U"];

fn run(
    alloc: Global,
    words: &[&str],
    files: &[(&str, &[u8])],
    fates: Fates,
) -> Result<OverWire, Fail> {
    run_wired_on(alloc, "m328p", words, desk_with(alloc, files)?, fates)
}

/// Runs one update without comparing.
fn update(alloc: Global, text: &str, fates: Fates) -> Result<OverWire, Fail> {
    let [part, id, no, update] = UNVERIFIED;
    run(alloc, &[part, id, no, update, text], &[], fates)
}

/// Checks all frames, all messages and the status.
fn shows(
    rt: &impl Abort,
    alloc: Global,
    over: &OverWire,
    frames: &[&str],
    lines: &[&str],
    status: u8,
) -> Result<(), Fail> {
    assert!(rt; over.desk.messages() == printed(alloc, lines)?.as_slice());
    assert_eq!(rt; over.link.sent(), joined(alloc, frames)?.as_slice());
    assert_eq!(rt; over.status, status);
    Ok(())
}

/// Returns the number of frames sent.
fn count_of_frames(sent: &[u8]) -> usize {
    let mut count = 0;
    let mut at = 0;
    while at + 3 < sent.len() {
        at += 6 + sent[at + 2] as usize * 256 + sent[at + 3] as usize;
        count += 1;
    }
    count
}

/// Returns `good` good fates, then these.
fn fates_of(alloc: Global, good: usize, last: [Fate; 4]) -> Result<Fates, Fail> {
    let mut fates = Fates::none(alloc);
    for _ in 0..good {
        fates.push(Fate::Good)?;
    }
    for fate in last {
        fates.push(fate)?;
    }
    Ok(fates)
}

/// Address and page are sent again, with new numbers.
#[test]
fn the_reply_to_a_page_is_lost(rt: HostRuntime) -> Result<(), Fail> {
    let alloc = rt.alloc();
    let over = update(alloc, "flash:w:0x12:m", fates(alloc, 7, Fate::LostAnswer)?)?;
    let mut wanted = joined(alloc, &[OPENING, "1B0600070E120900AC80000023"])?;
    let mut frame = ArrayVec::new();
    let mut page = [0xFF; 128];
    page[0] = 0x12;
    for seq in [7u8, 9] {
        put_frame(seq, &[0x06, 0, 0, 0, 0], &mut frame);
        wanted.extend_from_slice(frame.as_slice())?;
        Command::program_page(&page).put_frame(seq + 1, &mut frame);
        wanted.extend_from_slice(frame.as_slice())?;
    }
    put_frame(11, &[0x11, 0x01, 0x01], &mut frame);
    wanted.extend_from_slice(frame.as_slice())?;
    assert!(rt; over.link.sent() == wanted.as_slice());
    assert_eq!(rt; over.status, 0);
    Ok(())
}

/// The reply to frame 255 is late; LEAVE is frame 520.
#[test]
fn the_whole_eeprom_is_written(rt: HostRuntime) -> Result<(), Fail> {
    let alloc = rt.alloc();
    let bytes = pattern(alloc, 1024)?;
    let [part, id, no, update] = UNVERIFIED;
    let words = [part, id, no, update, "eeprom:w:e.bin:r"];
    let late = fates(alloc, 254, Fate::LateAnswer)?;
    let over = run(alloc, &words, &[("e.bin", bytes.as_slice())], late)?;
    assert_eq!(rt; count_of_frames(over.link.sent()), 520);
    assert!(rt; over.link.sent().ends_with(joined(alloc, &["1B0800030E1101010F"])?.as_slice()));
    assert!(rt; holds(over.link.chip(), Mem::Eeprom, bytes.as_slice()));
    let lines = ["device signature = 1E 95 0F", "eeprom: 1024 bytes written", "done"];
    assert!(rt; over.desk.messages() == printed(alloc, &lines)?.as_slice());
    assert_eq!(rt; over.status, 0);
    Ok(())
}

/// The programmer refuses SIGN_ON for its check sum, then obeys the next one.
#[test]
fn a_command_is_refused_for_its_check_sum(rt: HostRuntime) -> Result<(), Fail> {
    let alloc = rt.alloc();
    let refused = fates(alloc, 0, Fate::CommandRefused)?;
    let over = run(alloc, &["-p", "m328p"], &[], refused)?;
    let frames = [
        "1B0100010E0114",
        "1B0200010E0117",
        "1B03000C0E10C8641920005303AC53000030",
        "1B0400060E1B043000000038",
        "1B0500060E1B043000010038",
        "1B0600060E1B043000020038",
        "1B0700030E11010100",
    ];
    let lines = ["device signature = 1E 95 0F", "done"];
    shows(&rt, alloc, &over, &frames, &lines, 0)?;
    assert!(rt; over.link.heard().starts_with(joined(alloc, &["1B0100020EB0C167"])?.as_slice()));
    Ok(())
}

#[test]
fn the_reply_to_a_fuse_is_spoiled(rt: HostRuntime) -> Result<(), Fail> {
    let alloc = rt.alloc();
    let noise = [0x1B, 0x06, 0x00, 0x03, 0x0E, 0x17, 0x00, 0x00, 0x00];
    let spoiled = fates(alloc, 5, Fate::AnswerSpoiled(Vec::from_slice(alloc, &noise)?))?;
    let over = update(alloc, "lfuse:w:0xE2:m", spoiled)?;
    let frames = [
        OPENING,
        "1B0600050E17ACA000E2EF",
        "1B0700050E17ACA000E2EE",
        "1B0800030E1101010F",
    ];
    let lines = ["device signature = 1E 95 0F", "lfuse: 1 bytes written", "done"];
    shows(&rt, alloc, &over, &frames, &lines, 0)?;
    assert_eq!(rt; over.link.chip().byte(Mem::Lfuse, 0), Some(0xE2));
    Ok(())
}

#[test]
fn four_replies_to_an_erase_are_lost(rt: HostRuntime) -> Result<(), Fail> {
    let alloc = rt.alloc();
    let lost = [Fate::LostAnswer, Fate::LostAnswer, Fate::LostAnswer, Fate::LostAnswer];
    let over = update(alloc, "flash:w:0x12:m", fates_of(alloc, 5, lost)?)?;
    let frames = [
        OPENING,
        "1B0600070E120900AC80000023",
        "1B0700070E120900AC80000022",
        "1B0800070E120900AC8000002D",
        "1B0900070E120900AC8000002C",
        "1B0A00030E1101010D",
    ];
    let lines = ["device signature = 1E 95 0F", "error: no answer"];
    shows(&rt, alloc, &over, &frames, &lines, 1)?;
    assert!(rt; is_blank(over.link.chip(), &[Mem::Flash]));
    Ok(())
}

#[test]
fn four_commands_are_lost(rt: HostRuntime) -> Result<(), Fail> {
    let alloc = rt.alloc();
    let lost = [Fate::LostCommand, Fate::LostCommand, Fate::LostCommand, Fate::LostCommand];
    let over = run(alloc, &["-p", "m328p"], &[], fates_of(alloc, 0, lost)?)?;
    let frames = [
        "1B0100010E0114",
        "1B0200010E0117",
        "1B0300010E0116",
        "1B0400010E0111",
        "1B0500030E11010102",
    ];
    shows(&rt, alloc, &over, &frames, &["error: no answer"], 1)?;
    let all = [Mem::Flash, Mem::Eeprom, Mem::Lfuse, Mem::Hfuse, Mem::Efuse, Mem::Lock];
    assert!(rt; is_blank(over.link.chip(), &all));
    Ok(())
}

/// The lock acts at once: the fuse that is written next reads FF.
#[test]
fn a_locked_fuse_is_reported(rt: HostRuntime) -> Result<(), Fail> {
    let alloc = rt.alloc();
    let words = ["-p", "m328p", "-U", "lock:w:0xFE:m", "-U", "lfuse:w:0x62:m"];
    let over = run(alloc, &words, &[], Fates::none(alloc))?;
    let frames = [
        OPENING,
        "1B0600050E19ACE000FEBD",
        "1B0700060E1A045800000052",
        "1B0800050E17ACA0006261",
        "1B0900060E18045000000056",
        "1B0A00030E1101010D",
    ];
    let lines = [
        "device signature = 1E 95 0F",
        "lock: 1 bytes written",
        "lock: 1 bytes verified",
        "lfuse: 1 bytes written",
        "error: lfuse: address 00000000: 62 expected, FF found",
    ];
    shows(&rt, alloc, &over, &frames, &lines, 1)
}

/// All of it with `-A`, without a byte otherwise.
#[test]
fn an_erased_flash_is_read(rt: HostRuntime) -> Result<(), Fail> {
    let alloc = rt.alloc();
    let words = ["-p", "m328p", "-A", "-U", "flash:r:f.bin"];
    let over = run(alloc, &words, &[], Fates::none(alloc))?;
    assert_eq!(rt; count_of_frames(over.link.sent()), 262);
    let lines = ["device signature = 1E 95 0F", "flash: 32768 bytes read", "done"];
    assert!(rt; over.desk.messages() == printed(alloc, &lines)?.as_slice());
    assert_eq!(rt; over.desk.file("f.bin").map(|file| file.len()), Some(32_768));
    let over = run(alloc, &["-p", "m328p", "-U", "flash:r:f.bin"], &[], Fates::none(alloc))?;
    assert!(rt; over.desk.file("f.bin") == Some(b"".as_slice()));
    Ok(())
}

/// Options without effect, and a part file whose part has the numbers of a built-in one.
#[test]
fn a_part_of_ones_own(rt: HostRuntime) -> Result<(), Fail> {
    let alloc = rt.alloc();
    let parts = b"[parts.x1]
signature = \"1E950F\"
flash_size = 32768
flash_page = 128
eeprom_size = 1024
eeprom_page = 4
eesave_bit = 3
";
    let words = ["-b", "115200", "-v", "--parts", "p.toml", "-p", "x1"];
    let over = run(alloc, &words, &[("p.toml", parts.as_slice())], Fates::none(alloc))?;
    let lines = ["device signature = 1E 95 0F", "done"];
    shows(&rt, alloc, &over, &[OPENING, LEAVE], &lines, 0)
}

/// An erase, then 128 blocks are read to compare nothing.
#[test]
fn an_empty_file_is_written_to_flash(rt: HostRuntime) -> Result<(), Fail> {
    let alloc = rt.alloc();
    let words = ["-p", "m328p", "-U", "flash:w:e.bin"];
    let over = run(alloc, &words, &[("e.bin", b"".as_slice())], Fates::none(alloc))?;
    let begins = joined(alloc, &[OPENING, "1B0600070E120900AC80000023"])?;
    assert!(rt; over.link.sent().starts_with(begins.as_slice()));
    assert!(rt; over.link.sent().ends_with(joined(alloc, &["1B0700030E11010100"])?.as_slice()));
    assert_eq!(rt; count_of_frames(over.link.sent()), 5 + 1 + 256 + 1);
    let lines = [
        "device signature = 1E 95 0F",
        "chip erased",
        "flash: 0 bytes written",
        "flash: 0 bytes verified",
        "done",
    ];
    assert!(rt; over.desk.messages() == printed(alloc, &lines)?.as_slice());
    assert_eq!(rt; over.status, 0);
    Ok(())
}
