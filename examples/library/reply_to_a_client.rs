// crates: anyhow avr_part stk_emu stk_frame
//! Replies to a client with an emulated programmer, as a test double for a client of your own. The client here sends
//! noise, a good frame, and a frame that was corrupted on its way.
//!
//! The expected output was worked out by hand from AVR068. The good frame asks for the programmer's name. The reply to
//! the corrupted one is ANSWER_CKSUM_ERROR with STATUS_CKSUM_ERROR. All bytes of a frame have the XOR 00.
//= 1B 01 00 0B 0E 01 00 08 53 54 4B 35 30 30 5F 32 02 1B 02 00 02 0E B0 C1 64
//= reply 1 is good
//= reply 2: not good
#![tactic(auto)]

use anyhow::Result;
use avr_part::{Chip, Parts};
use std::io::{self, Write};
use stk_emu::Emulator;
use stk_frame::{Answer, Command, Event, FrameReader};

/// What the client sends: noise, SIGN_ON with sequence number 1, and SIGN_ON with number 2 and a wrong XOR.
const SENT: &[u8] = b"\x00\x1B\x01\x00\x01\x0E\x01\x14\x1B\x02\x00\x01\x0E\x01\x00";

fn main(rt: HostRuntime) -> Result<()> {
    let chip = Chip::fresh(rt.alloc(), Parts::none().find("m328p")?)?;
    let mut emulator = Emulator::new(chip);
    let mut replies = Vec::new(rt.alloc());
    emulator.reply_to_all(SENT, &mut replies)?;
    let mut out = io::writer(&rt);
    print_bytes(replies.as_slice(), &mut out)?;
    read_replies(replies.as_slice(), &mut out)
}

/// Reads these bytes as the client does, and prints for each frame whether it is a good reply to SIGN_ON.
fn read_replies<W: Write>(bytes: &[u8], out: &mut W) -> Result<()> {
    let mut reader = FrameReader::new();
    let mut used = 0;
    while used < bytes.len() {
        let (count, event) = reader.feed(&bytes[used..]);
        used += count;
        if event == Event::Frame {
            match Answer::read(&Command::SignOn, reader.body()) {
                Ok(_) => writeln!(out, "reply {} is good", reader.seq())?,
                Err(_) => writeln!(out, "reply {}: not good", reader.seq())?,
            }
        }
    }
    Ok(())
}

fn print_bytes<W: Write>(bytes: &[u8], out: &mut W) -> Result<()> {
    for (place, byte) in bytes.iter().enumerate() {
        if place > 0 {
            write!(out, " ")?;
        }
        write!(out, "{byte:02X}")?;
    }
    writeln!(out)?;
    Ok(())
}
