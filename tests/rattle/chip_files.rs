//! Chip files that are missing, complete or of the wrong length, and desks that fail or lock nothing.
use avr_desk::{ChipDesk, Desk, DeskFault, FailingDesk, MemDesk};
use avr_part::{Chip, Mem, Part, PartFault, Parts};
use avr_tool::{
    Port, Settings, Text, Unlocked, hold_chip, load_chip, parse_update, run_emu, save_chip,
};
use std::alloc::{AllocError, Global};
use std::test::Fail;

fn m328p() -> Result<Part, PartFault> {
    Parts::none().find("m328p")
}

/// Returns `n` bytes, each computed from its place, so that swapped bytes are noticed.
fn file_of(alloc: Global, n: usize) -> Result<Vec<u8>, AllocError> {
    let mut bytes = Vec::with_capacity(alloc, n)?;
    for at in 0..n {
        bytes.push((at % 251) as u8)?;
    }
    Ok(bytes)
}

/// Returns a desk that has `file` as `chip.bin`.
fn desk_with(alloc: Global, file: &[u8]) -> Result<MemDesk, AllocError> {
    let mut desk = MemDesk::empty(alloc);
    desk.put("chip.bin", file)?;
    Ok(desk)
}

/// Loads an ATmega328P from this file.
fn load<D: Desk>(alloc: Global, file: &str, desk: &mut D) -> Result<Result<Chip, u8>, PartFault> {
    Ok(load_chip(alloc, &m328p()?, file, desk))
}

/// Returns whether the chip in `chip.bin` has `first` as its first byte of EEPROM, and saving it as `file` gives
/// `bytes`.
fn is_given_back(
    alloc: Global,
    desk: &mut MemDesk,
    first: u8,
    file: &str,
    bytes: &[u8],
) -> Result<bool, PartFault> {
    let Ok(chip) = load(alloc, "chip.bin", desk)? else {
        return Ok(false);
    };
    let is_first = chip.byte(Mem::Eeprom, 0) == Some(first);
    let is_saved = save_chip(&chip, file, desk) == Ok(());
    Ok(is_first && is_saved && desk.file(file) == Some(bytes))
}

#[test]
fn no_file_is_a_fresh_chip(rt: HostRuntime) -> Result<(), Fail> {
    let alloc = rt.alloc();
    let fresh = vec![in alloc; 255; 33_796]?;
    let mut desk = MemDesk::empty(alloc);
    assert!(rt; is_given_back(alloc, &mut desk, 255, "chip.bin", fresh.as_slice())?);
    assert!(rt; desk.messages().is_empty());
    Ok(())
}

#[test]
fn a_file_is_written_back(rt: HostRuntime) -> Result<(), Fail> {
    let alloc = rt.alloc();
    let file = file_of(alloc, 33_796)?;
    let first = (32_768 % 251) as u8;
    let mut desk = desk_with(alloc, file.as_slice())?;
    assert!(rt; is_given_back(alloc, &mut desk, first, "copy.bin", file.as_slice())?);
    Ok(())
}

/// Returns whether a file of `n` bytes is refused with this line.
fn refuses(alloc: Global, n: usize, line: &str) -> Result<bool, Fail> {
    let mut desk = desk_with(alloc, file_of(alloc, n)?.as_slice())?;
    let loaded = load(alloc, "chip.bin", &mut desk)?;
    Ok(matches!(loaded, Err(1)) && desk.messages() == line.as_bytes())
}

#[test]
fn lengths_that_are_refused(rt: HostRuntime) -> Result<(), Fail> {
    let alloc = rt.alloc();
    let line = "avrstk: error: chip.bin: 100 bytes, 33796 expected\n";
    assert!(rt; refuses(alloc, 100, line)?);
    let line = "avrstk: error: chip.bin: 4194304 bytes, 33796 expected\n";
    assert!(rt; refuses(alloc, 4_194_304, line)?);
    let line = "avrstk: error: chip.bin: longer than 4194304 bytes\n";
    assert!(rt; refuses(alloc, 4_194_305, line)?);
    Ok(())
}

/// Returns whether loading a chip fails with this line at a desk whose nth call fails.
fn fails_to_load(alloc: Global, n: u64, line: &str) -> Result<bool, Fail> {
    let mut desk = FailingDesk::new(desk_with(alloc, b"")?, n);
    let loaded = load(alloc, "chip.bin", &mut desk)?;
    Ok(matches!(loaded, Err(1)) && desk.inner().messages() == line.as_bytes())
}

/// Does the same for a chip that is to be held.
fn fails_to_hold(alloc: Global, n: u64, line: &str) -> Result<bool, Fail> {
    let mut desk = FailingDesk::new(desk_with(alloc, b"")?, n);
    let held = hold(alloc, &mut desk)?;
    Ok(matches!(held, Err(1)) && desk.inner().messages() == line.as_bytes())
}

/// Returns whether this chip can be saved.
fn saves<D: ChipDesk>(held: &Result<Chip, u8>, desk: &mut D) -> bool {
    match held {
        Ok(chip) => save_chip(chip, "chip.bin", desk) == Ok(()),
        Err(_) => false,
    }
}

/// Does the same as [`fails_to_load`] for a chip that is to be saved.
fn fails_to_save(alloc: Global, n: u64, line: &str) -> Result<bool, Fail> {
    let chip = Chip::fresh(alloc, m328p()?)?;
    let mut desk = FailingDesk::new(desk_with(alloc, b"")?, n);
    let saved = save_chip(&chip, "chip.bin", &mut desk);
    Ok(saved == Err(1) && desk.inner().messages() == line.as_bytes())
}

#[test]
fn a_desk_that_fails(rt: HostRuntime) -> Result<(), Fail> {
    let alloc = rt.alloc();
    assert!(rt; fails_to_load(alloc, 1, "avrstk: error: chip.bin: cannot be opened\n")?);
    assert!(rt; fails_to_load(alloc, 2, "avrstk: error: chip.bin: cannot be read\n")?);
    // the third call prints the line, so there is none
    assert!(rt; fails_to_load(alloc, 3, "")?);
    assert!(rt; fails_to_hold(alloc, 1, "avrstk: error: chip.bin: cannot be written\n")?);
    assert!(rt; fails_to_hold(alloc, 2, "avrstk: error: chip.bin: cannot be opened\n")?);
    assert!(rt; fails_to_save(alloc, 1, "avrstk: error: chip.bin: cannot be written\n")?);
    Ok(())
}

/// Loads the chip of `chip.bin`, and holds the file.
fn hold<D: ChipDesk>(alloc: Global, desk: &mut D) -> Result<Result<Chip, u8>, PartFault> {
    Ok(hold_chip(alloc, &m328p()?, "chip.bin", desk))
}

#[test]
fn a_chip_is_held_until_it_is_saved(rt: HostRuntime) -> Result<(), Fail> {
    let alloc = rt.alloc();
    let mut desk = MemDesk::empty(alloc);
    let held = hold(alloc, &mut desk)?;
    assert!(rt; matches!(hold(alloc, &mut desk)?, Err(1)));
    assert!(rt; desk.messages() == b"avrstk: error: chip.bin: in use by another run\n".as_slice());
    assert!(rt; saves(&held, &mut desk));
    assert!(rt; hold(alloc, &mut desk)?.is_ok());
    Ok(())
}

#[test]
fn a_chip_that_is_refused_is_not_held(rt: HostRuntime) -> Result<(), Fail> {
    let alloc = rt.alloc();
    let mut desk = desk_with(alloc, b"abc")?;
    assert!(rt; matches!(hold(alloc, &mut desk)?, Err(1)));
    assert!(rt;
        desk.messages() == b"avrstk: error: chip.bin: 3 bytes, 33796 expected\n".as_slice()
    );
    assert!(rt; desk.hold("chip.bin") == Ok(true));
    Ok(())
}

/// Returns the status of a run over `chip.bin` that reads the EEPROM into this file.
fn reads_into<D: ChipDesk>(alloc: Global, file: &str, desk: &mut D) -> Result<u8, Fail> {
    let mut settings = Settings::for_link(alloc, "m328p")?;
    settings.port = Port::Emulated(Text::new(alloc, "chip.bin")?);
    let update = format!(in alloc; "eeprom:r:{file}:r")?;
    settings
        .updates
        .push(parse_update(alloc, update.as_str())?)?;
    Ok(run_emu(alloc, &settings, desk))
}

/// No desk needs to tell that the name is the chip's. If the desk fails at another name, its third call, the chip isn't
/// locked any more.
#[test]
fn a_read_into_the_chip_is_refused(rt: HostRuntime) -> Result<(), Fail> {
    let alloc = rt.alloc();
    let mut desk = Unlocked::new(MemDesk::empty(alloc));
    assert!(rt; reads_into(alloc, "chip.bin", &mut desk)? == 1);
    let inner = desk.inner();
    assert!(rt; inner.messages() == b"avrstk: error: chip.bin: cannot be created\n".as_slice());
    assert!(rt; inner.uses().is_empty());
    let mut desk = FailingDesk::new(MemDesk::empty(alloc), 3);
    assert!(rt; reads_into(alloc, "out.bin", &mut desk)? == 1);
    let inner = desk.inner();
    assert!(rt; inner.messages() == b"avrstk: error: out.bin: cannot be created\n".as_slice());
    assert!(rt; inner.file("chip.bin").is_none() && desk.hold("chip.bin") == Ok(true));
    Ok(())
}

#[test]
fn an_unlocked_desk_locks_nothing(rt: HostRuntime) -> Result<(), Fail> {
    let alloc = rt.alloc();
    let mut desk = Unlocked::new(MemDesk::empty(alloc));
    let first = hold(alloc, &mut desk)?;
    let second = hold(alloc, &mut desk)?;
    assert!(rt; saves(&first, &mut desk) && saves(&second, &mut desk));
    // nothing is open after a replacement
    assert!(rt; desk.write(b"x") == Err(DeskFault::Failed));
    assert!(rt; desk.open("chip.bin") == Ok(()));
    let mut byte = [0u8; 1];
    assert!(rt; desk.read(&mut byte) == Ok(1) && byte == [255]);
    assert!(rt; desk.into_inner().uses().len() > 0);
    Ok(())
}

/// Saving fails at the write, so the old file is lost, and no file is used any more.
#[test]
fn an_unlocked_desk_may_lose_a_chip(rt: HostRuntime) -> Result<(), Fail> {
    let alloc = rt.alloc();
    let chip = Chip::fresh(alloc, m328p()?)?;
    let mut desk = Unlocked::new(FailingDesk::new(desk_with(alloc, b"old")?, 2));
    assert!(rt; save_chip(&chip, "chip.bin", &mut desk) == Err(1));
    let inner = desk.inner().inner();
    assert!(rt; inner.file("chip.bin") == Some(b"".as_slice()));
    assert!(rt; inner.messages() == b"avrstk: error: chip.bin: cannot be written\n".as_slice());
    assert!(rt; desk.open("chip.bin") == Err(DeskFault::Failed));
    assert!(rt; desk.create("chip.bin") == Err(DeskFault::Failed));
    assert!(rt; desk.replace("chip.bin", b"new") == Err(DeskFault::Failed));
    Ok(())
}
