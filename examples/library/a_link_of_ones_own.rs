// crates: anyhow arrayvec avr_part stk_emu stk_frame stk_host
//! Implements [`Link`] for a device that these crates don't know. Here the device is a test bench: an emulated
//! programmer whose replies wait in a queue and are received at most three bytes at a time.
//!
//! Contracts see two things of a link: the transcript of what was sent and received, which this one keeps in a [`Log`],
//! and the count of its failures. So before a call returns a fault, the link counts it; the call has then sent and
//! received nothing.
//!
//! The expected output is from the ATtiny85's data sheet: its signature, and 512 bytes of EEPROM, all FF after the
//! erase.
//= signature: 1E 93 0B
//= eeprom: 512 bytes, 512 of them FF
#![tactic(auto)]

use anyhow::Result;
use arrayvec::ArrayVec;
use avr_part::{Chip, Mem, Parts};
use stk_emu::Emulator;
use stk_frame::LARGEST_FRAME;
use stk_host::{Heard, Host, Link, LinkFault, Log};

/// The most bytes that are received at a time.
const AT_MOST: usize = 3;

/// A programmer, its replies and how many of their bytes were received, the transcript, and the count of failures.
#[derive(Drop)]
struct Bench {
    emulator: Emulator,
    replies: Vec<u8>,
    received: usize,
    passed: Log,
    failures: u64,
}

impl Link for Bench {
    ghost view = { λ bench. record { transcript = bench.passed.transcript; failures = bench.failures } };

    ghost Start = { Unit {0} };

    ghost started_as = { λ start bench. Unit {0} };

    fn send(&mut self, bytes: &[u8]) -> std::result::Result<usize, LinkFault> {
        let (Ok(()), Ok(())) = (self.passed.reserve(bytes.len()), self.replies.reserve(LARGEST_FRAME)) else {
            self.failures = self.failures.saturating_add(1);
            return Err(LinkFault::Failed);
        };
        let mut reply: ArrayVec<u8, LARGEST_FRAME> = ArrayVec::new();
        let used = self.emulator.feed(bytes, &mut reply);
        let _there_is_room = self.replies.extend_from_slice(reply.as_slice());
        self.passed.add_sent(&bytes[..used]);
        Ok(used)
    }

    fn recv(&mut self, buffer: &mut [u8]) -> std::result::Result<Heard, LinkFault> {
        let waits = self.replies.as_slice().get(self.received..).unwrap_or(&[]);
        let count = buffer.len().min(waits.len()).min(AT_MOST);
        buffer[..count].copy_from_slice(&waits[..count]);
        let heard = if count == 0 { Heard::Silence } else { Heard::Bytes(count) };
        let Ok(()) = self.passed.add_received(heard, buffer) else {
            self.failures = self.failures.saturating_add(1);
            return Err(LinkFault::Failed);
        };
        self.received = self.received.saturating_add(count);
        Ok(heard)
    }
}

fn main(rt: HostRuntime) -> Result<()> {
    let alloc = rt.alloc();
    let part = Parts::none().find("t85")?;
    let mut bench = Bench {
        emulator: Emulator::new(Chip::fresh(alloc, part.copied())?),
        replies: Vec::new(alloc),
        received: 0,
        passed: Log::new(alloc),
        failures: 0,
    };
    let mut host = Host::new(part);
    let [first, second, third] = host.open(&mut bench, false)?;
    println!(rt; "signature: {first:02X} {second:02X} {third:02X}")?;
    host.erase(&mut bench)?;
    let mut bytes = Vec::new(alloc);
    host.read(&mut bench, Mem::Eeprom, &mut bytes)?;
    let erased = bytes.iter().filter(|byte| **byte == 0xFF).count();
    println!(rt; "eeprom: {} bytes, {erased} of them FF", bytes.len())?;
    host.close(&mut bench)?;
    Ok(())
}
