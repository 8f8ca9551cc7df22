// crates: anyhow avr_part stk_emu
//! Tests a client that uses only `Read` and `Write`, and knows nothing of these crates. An emulated programmer takes
//! the place of the serial port.
//!
//! The expected output is from AVR068: the reply to SIGN_ON has 17 bytes, the eight before the XOR are the programmer's
//! name, and a programmer sends nothing unasked. SIGN_ON writes no memory, and a fresh chip's flash is all FF.
//= programmer: STK500_2
//= nothing more
//= byte 0 of the chip: FF
#![tactic(auto)]

use anyhow::{Result, bail};
use avr_part::{Chip, Mem, Parts};
use std::io::{self, ErrorKind, Read, Write};
use stk_emu::{EmulatedPort, Emulator};

/// SIGN_ON with sequence number 1.
const SIGN_ON: &[u8] = b"\x1B\x01\x00\x01\x0E\x01\x14";

/// The client: sends SIGN_ON and returns the reply.
fn sign_on<P: Read + Write>(port: &mut P) -> io::Result<[u8; 17]> {
    port.write_all(SIGN_ON)?;
    port.flush()?;
    let mut reply = [0; 17];
    port.read_exact(&mut reply)?;
    Ok(reply)
}

fn main(rt: HostRuntime) -> Result<()> {
    let chip = Chip::fresh(rt.alloc(), Parts::none().find("m328p")?)?;
    let mut port = EmulatedPort::new(rt.alloc(), Emulator::new(chip));
    let reply = sign_on(&mut port)?;
    let name = std::str::from_utf8(&reply[8..16])?;
    println!(rt; "programmer: {name}")?;
    match port.read(&mut [0; 1]) {
        Err(error) if error.kind() == ErrorKind::WouldBlock => println!(rt; "nothing more")?,
        _ => bail!("a reply that nobody asked for"),
    }
    let chip = port.into_emulator().into_chip();
    println!(rt; "byte 0 of the chip: {:02X}", chip.byte(Mem::Flash, 0).unwrap_or(0))?;
    Ok(())
}
