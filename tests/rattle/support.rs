//! Shared by the tests of whole runs: settings, desks, wires and their fates, runs, and checks of their results.

use avr_plan::{Settings, read_settings, read_words};
use avr_desk::{Desk, MemDesk};
use avr_part::{Chip, Mem, Parts};
use avr_tool::{run, run_wired};
use std::alloc::{AllocError, Global};
use std::process::Abort;
use std::test::Fail;
use stk_emu::{Fate, Fates, FatesFault, Wired};
use stk_host::Link;

/// A run: the arguments after the program's name and port, standard output, the messages without `avrstk: ` in front,
/// and the status.
#[derive(Drop)]
pub(crate) struct Row {
    pub(crate) words: &'static [&'static str],
    pub(crate) output: &'static str,
    pub(crate) messages: &'static [&'static str],
    pub(crate) status: u8,
}

/// A run that has ended.
#[derive(Drop)]
pub(crate) struct Over<D, L> {
    pub(crate) desk: D,
    pub(crate) link: L,
    pub(crate) status: u8,
}

/// Reads the settings of a command line with these arguments after the program's name and port.
pub(crate) fn settings_for(alloc: Global, words: &[&str]) -> Result<Settings, Fail> {
    let mut all: Vec<String> = Vec::new(alloc);
    for word in ["avrstk", "-P", "emu:chip.bin"] {
        all.push(String::from_str(alloc, word)?)?;
    }
    for word in words {
        all.push(String::from_str(alloc, *word)?)?;
    }
    let matches = read_words(alloc, all.as_slice())?;
    Ok(read_settings(alloc, &matches)?)
}

/// Returns a desk with these files, each a name and its bytes.
pub(crate) fn desk_with(alloc: Global, files: &[(&str, &[u8])]) -> Result<MemDesk, Fail> {
    let mut desk = MemDesk::empty(alloc);
    for (name, bytes) in files {
        desk.put(*name, *bytes)?;
    }
    Ok(desk)
}

/// Returns `good` good fates, then `last`.
pub(crate) fn fates(alloc: Global, good: usize, last: Fate) -> Result<Fates, FatesFault> {
    let mut fates = Fates::none(alloc);
    for _good in 0..good {
        fates.push(Fate::Good)?;
    }
    fates.push(last)?;
    Ok(fates)
}

/// Returns a wire with these fates to a fresh chip.
pub(crate) fn wire_to(alloc: Global, id: &str, fates: Fates) -> Result<Wired, Fail> {
    let part = Parts::none().find(id)?;
    let chip = Chip::fresh(alloc, part.copied())?;
    Ok(Wired::with_fates(alloc, chip, fates))
}

/// Runs the tool with these arguments at a desk and over a link.
pub(crate) fn run_on<D: Desk + Drop, L: Link + Drop>(
    alloc: Global,
    words: &[&str],
    desk: D,
    link: L,
) -> Result<Over<D, L>, Fail> {
    let settings = settings_for(alloc, words)?;
    let mut desk = desk;
    let mut link = link;
    let status = run(alloc, &settings, &mut desk, &mut link);
    Ok(Over { desk, link, status })
}

/// Runs the tool with these arguments at a desk, over a wire with these fates to a fresh chip, by `run_wired`, whose
/// contract is the headline.
pub(crate) fn run_wired_on(
    alloc: Global,
    id: &str,
    words: &[&str],
    desk: MemDesk,
    fates: Fates,
) -> Result<Over<MemDesk, Wired>, Fail> {
    let settings = settings_for(alloc, words)?;
    let chip = Chip::fresh(alloc, Parts::none().find(id)?)?;
    let mut desk = desk;
    let mut link = Wired::with_fates(alloc, chip, fates);
    let status = run_wired(alloc, &settings, &mut desk, &mut link);
    Ok(Over { desk, link, status })
}

/// Joins message lines, each with the program's name in front.
pub(crate) fn printed(alloc: Global, lines: &[&str]) -> Result<Vec<u8>, Fail> {
    let mut bytes = Vec::new(alloc);
    for line in lines {
        bytes.extend_from_slice(b"avrstk: ")?;
        bytes.extend_from_slice(line.as_bytes())?;
        bytes.extend_from_slice(b"\n")?;
    }
    Ok(bytes)
}

/// Checks that messages, standard output and status are those of the row.
pub(crate) fn shows(
    rt: &impl Abort,
    alloc: Global,
    row: &Row,
    desk: &MemDesk,
    status: u8,
) -> Result<(), Fail> {
    assert!(rt; desk.messages() == printed(alloc, row.messages)?.as_slice());
    assert!(rt; desk.output() == row.output.as_bytes());
    assert!(rt; status == row.status);
    Ok(())
}

/// Runs a row at a desk and over a wire, and checks it.
pub(crate) fn run_row(
    rt: &impl Abort,
    alloc: Global,
    row: &Row,
    desk: MemDesk,
    wire: Wired,
) -> Result<Over<MemDesk, Wired>, Fail> {
    let over = run_on(alloc, row.words, desk, wire)?;
    shows(rt, alloc, row, &over.desk, over.status)?;
    Ok(over)
}

/// Decodes and joins several frames in hexadecimal.
pub(crate) fn joined(alloc: Global, frames: &[&str]) -> Result<Vec<u8>, Fail> {
    let mut bytes = Vec::new(alloc);
    for digits in frames {
        bytes.extend_from_slice(hex::decode(alloc, *digits)?.as_slice())?;
    }
    Ok(bytes)
}

/// Returns whether a memory of the chip begins with these bytes.
pub(crate) fn holds(chip: &Chip, mem: Mem, bytes: &[u8]) -> bool {
    for (address, byte) in (0u32..4_096).zip(bytes) {
        if chip.byte(mem, address) != Some(*byte) {
            return false;
        }
    }
    true
}

/// Returns whether every byte of these memories is FF.
pub(crate) fn is_blank(chip: &Chip, mems: &[Mem]) -> bool {
    for mem in mems {
        for address in 0..chip.part().size_of(*mem) {
            if chip.byte(*mem, address) != Some(0xFF) {
                return false;
            }
        }
    }
    true
}

/// Returns `size` bytes, each the low byte of its address.
pub(crate) fn pattern(alloc: Global, size: u32) -> Result<Vec<u8>, AllocError> {
    let mut bytes = Vec::new(alloc);
    for n in 0..size {
        bytes.push((n % 256) as u8)?;
    }
    Ok(bytes)
}
