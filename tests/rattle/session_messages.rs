//! Each fault is formatted as its message line. The fault of a port isn't: its line also names the port.
use avr_plan::{
    Settings, SettingsFault, Text, UpdateFault, parse_update, plan, read_settings, read_words,
};
use avr_desk::MemDesk;
use avr_part::Mem;
use avr_session::{Outcome, drive_outcome, refuse};
use std::alloc::{AllocError, Global};
use std::test::Fail;
use stk_host::{FailingLink, HostFault, Item, Link, TapeLink};
use crate::data::REPLIES;

/// An update that only reads.
const READ: &str = "lfuse:r:low:h";

/// Returns whether a fault of the settings is formatted as the line that is printed for it.
fn shows_as_printed(alloc: Global, fault: &SettingsFault) -> bool {
    let mut desk = MemDesk::empty(alloc);
    refuse(fault, &mut desk);
    match format!(in alloc; "avrstk: error: {fault}\n") {
        Ok(line) => desk.messages() == line.as_bytes(),
        Err(_) => false,
    }
}

#[test]
fn faults_show_as_their_lines(rt: HostRuntime) -> Result<(), Fail> {
    let alloc = rt.alloc();
    let programmer = SettingsFault::BadProgrammer(Text::new(alloc, "usbasp")?);
    assert!(rt; shows_as_printed(alloc, &programmer));
    assert!(rt; shows_as_printed(alloc, &SettingsFault::NoPart));
    assert!(rt; shows_as_printed(alloc, &SettingsFault::NoChip));
    assert!(rt; shows_as_printed(alloc, &SettingsFault::TooMany));
    assert!(rt; shows_as_printed(alloc, &SettingsFault::StandardTaken));
    assert!(rt; shows_as_printed(alloc, &SettingsFault::Memory));
    let update = SettingsFault::BadUpdate(2, UpdateFault::BadFormat);
    assert!(rt; shows_as_printed(alloc, &update));
    Ok(())
}

fn settings_for(alloc: Global, update: &str) -> Result<Settings, Fail> {
    let mut words: Vec<String> = Vec::new(alloc);
    for word in ["avrstk", "-P", "stdio:", "-p", "m328p", "-U", update] {
        words.push(String::from_str(alloc, word)?)?;
    }
    let matches = read_words(alloc, words.as_slice())?;
    Ok(read_settings(alloc, &matches)?)
}

/// Runs a session with this update. Returns its outcome, or nothing if there is no plan.
fn outcome_over<L: Link>(
    alloc: Global,
    update: &str,
    desk: &mut MemDesk,
    link: &mut L,
) -> Result<Option<Outcome>, Fail> {
    let settings = settings_for(alloc, update)?;
    match plan(alloc, &settings, desk) {
        Ok(plan) => Ok(Some(drive_outcome(alloc, &plan, desk, link))),
        Err(_) => Ok(None),
    }
}

/// Returns a tape of the first `count` bytes of the worked session's replies, then `more`.
fn replies_then(alloc: Global, count: usize, more: &[u8]) -> Result<Vec<Item>, AllocError> {
    let mut items = Vec::new(alloc);
    for byte in REPLIES.iter().take(count).chain(more) {
        items.push(Item::Byte(*byte))?;
    }
    Ok(items)
}

/// Returns whether a session over these items ends with this fault, and the last line is its text.
fn ends_with(
    alloc: Global,
    update: &str,
    items: Vec<Item>,
    fault: HostFault,
) -> Result<bool, Fail> {
    let mut desk = MemDesk::empty(alloc);
    let mut link = TapeLink::new(alloc, items, 281);
    let outcome = outcome_over(alloc, update, &mut desk, &mut link)?;
    let line = format!(in alloc; "avrstk: error: {fault}\n")?;
    Ok(outcome == Some(Outcome::Faulty(fault)) && desk.messages().ends_with(line.as_bytes()))
}

/// Returns whether a session stops if this call of the link fails, and the last line is the text of this fault.
fn stops_with(alloc: Global, call: u64, fault: HostFault) -> Result<bool, Fail> {
    let mut desk = MemDesk::empty(alloc);
    let tape = TapeLink::new(alloc, replies_then(alloc, 63, &[])?, 281);
    let mut link = FailingLink::new(tape, call, 281);
    let outcome = outcome_over(alloc, READ, &mut desk, &mut link)?;
    let line = format!(in alloc; "avrstk: error: {fault}\n")?;
    Ok(outcome == Some(Outcome::Stopped) && desk.messages().ends_with(line.as_bytes()))
}

// The faults of a host follow, except two that no session brings about here: a read-only memory is refused before the
// session, and memory doesn't run out.

#[test]
fn faults_of_the_line_show_as_their_lines(rt: HostRuntime) -> Result<(), Fail> {
    let alloc = rt.alloc();
    let silent = vec![in alloc; Item::Silence; 8]?;
    assert!(rt; ends_with(alloc, READ, silent, HostFault::NoAnswer)?);
    let cut = replies_then(alloc, 17, &[])?;
    assert!(rt; ends_with(alloc, READ, cut, HostFault::LinkEnded)?);
    let babble = vec![in alloc; Item::Byte(0); 16_384]?;
    assert!(rt; ends_with(alloc, READ, babble, HostFault::Babble)?);
    Ok(())
}

#[test]
fn failed_calls_show_as_their_lines(rt: HostRuntime) -> Result<(), Fail> {
    let alloc = rt.alloc();
    assert!(rt; stops_with(alloc, 1, HostFault::SendFailed)?);
    assert!(rt; stops_with(alloc, 2, HostFault::RecvFailed)?);
    Ok(())
}

#[test]
fn faults_of_replies_show_as_their_lines(rt: HostRuntime) -> Result<(), Fail> {
    let alloc = rt.alloc();
    let refused = replies_then(alloc, 17, &[0x1B, 0x02, 0x00, 0x02, 0x0E, 0x10, 0xC0, 0xC5])?;
    let fault = HostFault::Refused(0x10, 0xC0);
    assert!(rt; ends_with(alloc, READ, refused, fault)?);
    let other = replies_then(alloc, 17, &[0x1B, 0x02, 0x00, 0x02, 0x0E, 0x11, 0x00, 0x04])?;
    assert!(rt; ends_with(alloc, READ, other, HostFault::BadAnswer(0x10))?);
    Ok(())
}

#[test]
fn another_byte_shows_as_its_line(rt: HostRuntime) -> Result<(), Fail> {
    let alloc = rt.alloc();
    let fuse = [0x1B, 0x06, 0x00, 0x04, 0x0E, 0x18, 0x00, 0x62, 0x00, 0x6D];
    let items = replies_then(alloc, 55, &fuse)?;
    let fault = HostFault::Differs(Mem::Lfuse, 0, 0xE2, 0x62);
    assert!(rt; ends_with(alloc, "lfuse:v:0xE2:m", items, fault)?);
    Ok(())
}

/// This line continues after the text of the fault: it also has the signature of the part.
#[test]
fn another_signature_shows_as_its_line(rt: HostRuntime) -> Result<(), Fail> {
    let alloc = rt.alloc();
    let mut replies = REPLIES;
    replies[52] = 0x14;
    replies[54] = 0x1B;
    let mut desk = MemDesk::empty(alloc);
    let mut link = TapeLink::new(alloc, replies_then(alloc, 0, &replies)?, 281);
    let outcome = outcome_over(alloc, READ, &mut desk, &mut link)?;
    let fault = HostFault::WrongSignature([0x1E, 0x95, 0x14]);
    assert!(rt; outcome == Some(Outcome::Faulty(fault)));
    let line = format!(in alloc; "avrstk: error: {fault}, m328p has 1E 95 0F\n")?;
    assert!(rt; desk.messages().ends_with(line.as_bytes()));
    Ok(())
}

/// A library's plan may have any number of tasks; a command line has 16 at most. Their number takes no stack.
/// (only in ./test --all)
#[test]
fn many_tasks_take_no_stack(rt: HostRuntime) -> Result<(), Fail> {
    let alloc = rt.alloc();
    let mut settings = Settings::for_link(alloc, "m328p")?;
    settings.switches.dry = true;
    settings.switches.quiet = 2;
    for _ in 0..40_000u64 {
        settings.updates.push(parse_update(alloc, "lfuse:w:0xE2:m")?)?;
    }
    let mut desk = MemDesk::empty(alloc);
    let Ok(plan) = plan(alloc, &settings, &mut desk) else {
        panic!(rt; "the part is built in");
    };
    let mut link = TapeLink::new(alloc, replies_then(alloc, 63, &[])?, 281);
    assert!(rt; drive_outcome(alloc, &plan, &mut desk, &mut link) == Outcome::Done);
    Ok(())
}
