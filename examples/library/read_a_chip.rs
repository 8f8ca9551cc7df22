// crates: anyhow avr_part
//! Sends serial programming instructions to an emulated ATmega328P, and prints the size of each of its memories.
//!
//! The expected output is from the data sheet: the third byte of the reply to Programming Enable is the second one
//! sent, the signature is 1E 95 0F, a written page reads back, and the memories have these sizes. Of the two
//! part files one lacks a signature, and the other gives a key twice.
//= enabled: 53
//= signature: 1E 95 0F
//= word 0: 940C
//= flash: 32768
//= eeprom: 1024
//= lfuse: 1
//= hfuse: 1
//= efuse: 1
//= lock: 1
//= signature: 3
//= calibration: 1
//= there is no m32
//= part x1: signature is missing
//= line 2: not TOML
#![tactic(auto)]

use anyhow::Result;
use avr_part::{Chip, Mem, PartFault, Parts, parse_part_file};

fn main(rt: HostRuntime) -> Result<()> {
    let mut chip = Chip::fresh(rt.alloc(), Parts::none().find("m328p")?)?;
    let enabled = chip.spi([0xAC, 0x53, 0x00, 0x00]);
    println!(rt; "enabled: {:02X}", enabled[2])?;
    let [_, _, _, first] = chip.spi([0x30, 0x00, 0x00, 0x00]);
    let [_, _, _, second] = chip.spi([0x30, 0x00, 0x01, 0x00]);
    let [_, _, _, third] = chip.spi([0x30, 0x00, 0x02, 0x00]);
    println!(rt; "signature: {first:02X} {second:02X} {third:02X}")?;
    write_first_word(&mut chip, 0x0C, 0x94);
    let [_, _, _, low] = chip.spi([0x20, 0x00, 0x00, 0x00]);
    let [_, _, _, high] = chip.spi([0x28, 0x00, 0x00, 0x00]);
    println!(rt; "word 0: {high:02X}{low:02X}")?;
    for mem in Mem::ALL.iter() {
        println!(rt; "{}: {}", mem.name(), chip.memory(*mem).len())?;
    }
    match Parts::none().find("m32") {
        Ok(part) => println!(rt; "{}", part.id())?,
        Err(PartFault::NoSuchPart) => println!(rt; "there is no m32")?,
        Err(fault) => println!(rt; "{fault}")?,
    }
    for text in [b"[parts.x1]\n".as_slice(), b"a = 1\na = 2\n"] {
        if let Err(fault) = parse_part_file(rt.alloc(), text) {
            match fault.line() {
                Some(line) => println!(rt; "line {line}: {}", fault.fault())?,
                None => println!(rt; "part {}: {}", fault.part().unwrap_or("?"), fault.fault())?,
            }
        }
    }
    Ok(())
}

/// Loads the first word of the page buffer, then writes the first page of flash memory.
fn write_first_word(chip: &mut Chip, low: u8, high: u8) {
    chip.spi([0x40, 0x00, 0x00, low]);
    chip.spi([0x48, 0x00, 0x00, high]);
    chip.spi([0x4C, 0x00, 0x00, 0x00]);
}
