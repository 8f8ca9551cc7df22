//= stk_emu Emulator Wired Fate Fate::Good Fate::LostCommand Fate::LostAnswer Fate::LateAnswer Fate::CommandRefused
//= Fate::AnswerSpoiled Emulator::new Emulator::feed Emulator::chip Wired::new Wired::chip Wired::sent
//= noise_is_lawful
use arrayvec::ArrayVec;
use avr_part::{Chip, Mem, Parts};
use std::test::Fail;
use stk_emu::{Emulator, Fate, Wired, noise_is_lawful};
use stk_host::Link;

#[test]
fn emulators(rt: HostRuntime) -> Result<(), Fail> {
    let chip = Chip::fresh(rt.alloc(), Parts::none().find("m328p")?)?;
    let mut emulator: Emulator = Emulator::new(chip);
    let mut out: ArrayVec<u8, 281> = ArrayVec::new();
    let used: usize = emulator.feed(&[0x1B, 0x09, 0x00, 0x01, 0x0E, 0x05, 0x18], &mut out);
    assert!(rt; used == 7 && out.len() == 8);
    let chip: &Chip = emulator.chip();
    assert!(rt; chip.byte(Mem::Flash, 0) == Some(0xFF));
    Ok(())
}

#[test]
fn wires(rt: HostRuntime) -> Result<(), Fail> {
    let alloc = rt.alloc();
    let lawful: bool = noise_is_lawful(&[]);
    assert!(rt; lawful);
    let mut fates: Vec<Fate> = Vec::new(alloc);
    for fate in [
        Fate::Good,
        Fate::LostCommand,
        Fate::LostAnswer,
        Fate::LateAnswer,
        Fate::CommandRefused,
        Fate::AnswerSpoiled(Vec::new(alloc)),
    ] {
        fates.push(fate)?;
    }
    let chip = Chip::fresh(alloc, Parts::none().find("m328p")?)?;
    let mut wired: Wired = Wired::new(alloc, chip, fates);
    assert!(rt; wired.send(&[0x1B]) == Ok(1));
    let sent: &[u8] = wired.sent();
    assert!(rt; sent.len() == 1);
    let chip: &Chip = wired.chip();
    assert!(rt; chip.byte(Mem::Lock, 0) == Some(0xFF));
    Ok(())
}
