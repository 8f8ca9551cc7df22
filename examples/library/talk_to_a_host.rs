// crates: anyhow avr_image avr_part stk_emu stk_host
//! Programs and verifies a part with a [`Host`], over a wire that loses the first reply. Then it changes a byte of the
//! image, and verifying again finds that byte.
//!
//! The expected output was worked out by hand. The signature is from the data sheet, and a byte that was never written
//! is FF. SIGN_ON (01), the first command, is sent twice because its reply is lost.
//= signature: 1E 95 0F
//= asked first: 01, asked then: 01
//= verified
//= flash at 2: wanted 35, found 34
//= byte 4 of the chip: FF
#![tactic(auto)]

use anyhow::{Result, bail};
use avr_image::Image;
use avr_part::{Chip, Mem, Parts};
use stk_emu::{Fate, Fates, Wired};
use stk_host::{Host, HostFault};

fn main(rt: HostRuntime) -> Result<()> {
    let alloc = rt.alloc();
    let part = Parts::none().find("m328p")?;
    let chip = Chip::fresh(alloc, part.copied())?;
    let mut fates = Fates::none(alloc);
    fates.push(Fate::LostAnswer)?;
    let mut wire = Wired::with_fates(alloc, chip, fates);
    let mut host = Host::new(part.copied());
    let [first, second, third] = host.open(&mut wire, false)?;
    println!(rt; "signature: {first:02X} {second:02X} {third:02X}")?;
    // SIGN_ON has 7 bytes; its body is byte 5, after the start byte, the number, two bytes of length and the token
    let sent = wire.sent();
    println!(rt; "asked first: {:02X}, asked then: {:02X}", sent[5], sent[12])?;
    let mut image = Image::new(alloc, part.size_of(Mem::Flash))?;
    image.put_slice(0, &[0x0C, 0x94, 0x34, 0x00])?;
    host.erase(&mut wire)?;
    host.write(&mut wire, Mem::Flash, &image)?;
    host.verify(alloc, &mut wire, Mem::Flash, &image)?;
    println!(rt; "verified")?;
    image.put(2, 0x35)?;
    match host.verify(alloc, &mut wire, Mem::Flash, &image) {
        Err(HostFault::Differs(mem, addr, want, found)) => {
            println!(rt; "{} at {addr}: wanted {want:02X}, found {found:02X}", mem.name())?
        }
        Err(fault) => bail!("{fault}"),
        Ok(()) => bail!("no byte differs"),
    }
    host.close(&mut wire)?;
    let chip = wire.into_chip();
    println!(rt; "byte 4 of the chip: {:02X}", chip.byte(Mem::Flash, 4).unwrap_or(0))?;
    Ok(())
}
