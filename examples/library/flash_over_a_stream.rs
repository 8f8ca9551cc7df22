// crates: anyhow avr_image avr_part stk_frame stk_host
//! Flashes two bytes with a [`Host`] over any reader and writer, such as the two directions of a serial port or a
//! socket. Here they are bytes and a `Vec`, so the program can print the frames that it sent.
//!
//! The replies and the expected output were worked out by hand from AVR068 and the ATtiny85's data sheet (signature
//! 1E 93 0B, pages of 64 bytes). The programmer refuses the first erase. From the third line on, each line has a
//! frame's number and the first bytes of its body.
//= signature: 1E 93 0B
//= CMD_CHIP_ERASE_ISP: STATUS_CMD_FAILED
//= 1: 01
//= 2: 10 C8 64 19 20 00 53 03 AC 53 00 00
//= 3: 1B 04 30 00 00 00
//= 4: 1B 04 30 00 01 00
//= 5: 1B 04 30 00 02 00
//= 6: 12 09 00 AC 80 00 00
//= 7: 12 09 00 AC 80 00 00
//= 8: 06 00 00 00 00
//= 9: 13 00 40 C1 0A 40 4C 20 FF FF 0E C0 FF FF
//= 10: 11 01 01
#![tactic(auto)]

use anyhow::{Result, bail};
use avr_image::Image;
use avr_part::{Mem, Parts};
use std::io::{self, Write};
use stk_frame::{Event, FrameReader};
use stk_host::{Host, StreamLink};

/// The most bytes of a body that are printed.
const SHOWN: usize = 14;

/// The replies of the programmer: its name, programming mode entered, three bytes of the signature, erase refused, chip
/// erased, address loaded, page written, programming mode left.
const REPLIES: &[u8] = b"\x1B\x01\x00\x0B\x0E\x01\x00\x08STK500_2\x02\
    \x1B\x02\x00\x02\x0E\x10\x00\x05\
    \x1B\x03\x00\x04\x0E\x1B\x00\x1E\x00\x17\
    \x1B\x04\x00\x04\x0E\x1B\x00\x93\x00\x9D\
    \x1B\x05\x00\x04\x0E\x1B\x00\x0B\x00\x04\
    \x1B\x06\x00\x02\x0E\x12\xC0\xC3\
    \x1B\x07\x00\x02\x0E\x12\x00\x02\
    \x1B\x08\x00\x02\x0E\x06\x00\x19\
    \x1B\x09\x00\x02\x0E\x13\x00\x0D\
    \x1B\x0A\x00\x02\x0E\x11\x00\x0C";

fn main(rt: HostRuntime) -> Result<()> {
    let alloc = rt.alloc();
    let part = Parts::none().find("t85")?;
    let mut image = Image::new(alloc, part.size_of(Mem::Flash))?;
    image.put_slice(0, &[0x0E, 0xC0])?;
    let mut link = StreamLink::new(REPLIES, Vec::new(alloc));
    let mut host = Host::new(part);
    let [first, second, third] = host.open(&mut link, false)?;
    println!(rt; "signature: {first:02X} {second:02X} {third:02X}")?;
    if let Err(fault) = host.erase(&mut link) {
        match (fault.command_name(), fault.status_name(), link.last_error()) {
            (Some(command), Some(status), None) => println!(rt; "{command}: {status}")?,
            (_, _, error) => bail!("{fault} ({error:?})"),
        }
    }
    host.erase(&mut link)?;
    host.write(&mut link, Mem::Flash, &image)?;
    host.close(&mut link)?;
    let (_, sent) = link.into_inner();
    print_frames(sent.as_slice(), &mut io::writer(&rt))
}

/// Prints a line for each good frame in these bytes.
fn print_frames<W: Write>(bytes: &[u8], out: &mut W) -> Result<()> {
    let mut reader = FrameReader::new();
    let mut used = 0;
    while used < bytes.len() {
        let (count, event) = reader.feed(&bytes[used..]);
        used += count;
        if event == Event::Frame {
            write!(out, "{}:", reader.seq())?;
            for byte in reader.body().iter().take(SHOWN) {
                write!(out, " {byte:02X}")?;
            }
            writeln!(out)?;
        }
    }
    Ok(())
}
