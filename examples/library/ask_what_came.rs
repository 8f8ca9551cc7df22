// crates: anyhow avr_tool
//! Compares a chip with a damaged file, then with a good one. Both faults come as values, so a program can show which
//! line of the file is at fault, or where chip and file differ. `plan_or_fault` turns settings into a plan, and
//! `drive_outcome` runs its session and returns an `Outcome`, which has more than the exit status.
//!
//! The expected output was worked out by hand: the bytes of the damaged line add up to 01, the flash of a fresh chip is
//! all FF, and so are the good file's first two bytes. The messages are those of docs/TROUBLESHOOTING.
//= no plan: update 0: line 1: bad checksum
//= flash differs at byte 2: 03 wanted, FF found
//= status 1
//= avrstk: error: bad.hex: line 1: bad checksum
//= avrstk: device signature = 1E 95 0F
//= avrstk: error: flash: address 00000002: 03 expected, FF found
#![tactic(auto)]

use anyhow::{Result, bail};
use avr_tool::{
    Chip, Fates, HostFault, MemDesk, Outcome, Parts, Settings, Wired, drive_outcome, parse_update, plan_or_fault,
};
use std::alloc::Global;
use std::io::{self, Write};

fn main(rt: HostRuntime) -> Result<()> {
    let alloc = rt.alloc();
    let mut desk = MemDesk::empty(alloc);
    desk.put("bad.hex", b":04000000FFFF0304F8\n:00000001FF\n")?;
    desk.put("a.hex", b":04000000FFFF0304F7\n:00000001FF\n")?;
    match plan_or_fault(alloc, &comparison(alloc, "flash:v:bad.hex")?, &mut desk) {
        Err(fault) => println!(rt; "no plan: {fault}")?,
        Ok(_) => bail!("the file is damaged"),
    }
    let plan = plan_or_fault(alloc, &comparison(alloc, "flash:v:a.hex")?, &mut desk)?;
    let chip = Chip::fresh(alloc, Parts::none().find("m328p")?)?;
    let mut wire = Wired::with_fates(alloc, chip, Fates::none(alloc));
    let outcome = drive_outcome(alloc, &plan, &mut desk, &mut wire);
    match outcome {
        Outcome::Done => println!(rt; "the chip has the file's bytes")?,
        Outcome::Faulty(HostFault::Differs(mem, addr, want, found)) => {
            println!(rt; "{} differs at byte {addr}: {want:02X} wanted, {found:02X} found", mem.name())?;
        }
        Outcome::Faulty(fault) => println!(rt; "{fault}")?,
        Outcome::Stopped => println!(rt; "the line or a file failed")?,
    }
    println!(rt; "status {}", outcome.status())?;
    io::writer(&rt).write_all(desk.messages())?;
    Ok(())
}

/// Returns the settings of a run over a link of one's own, with this update.
fn comparison(alloc: Global, update: &str) -> Result<Settings> {
    let mut settings = Settings::for_link(alloc, "m328p")?;
    settings.updates.push(parse_update(alloc, update)?)?;
    Ok(settings)
}
