// crates: anyhow avr_image avr_records
//! Merges a patch in S-records into a firmware in Intel HEX, takes its last byte out, adds a serial number, and prints
//! the result as Intel HEX. An image knows which bytes it has, so only these are written. The serial number alone is
//! printed as S-records.
//!
//! The expected output was worked out by hand. With its checksum, the bytes of a line add up to 00 in Intel HEX, and to
//! FF in S-records.
//= the patch begins with 2 bytes at 0x2, and needs a memory of 4
//= two bytes hide others, the first at 0x2: 03
//= :040000000102AABB94
//= :03010000111213C6
//= :047F0000534E2D317E
//= :00000001FF
//= S1077F00534E2D317A
//= S9030000FC
#![tactic(auto)]

use anyhow::{Result, bail};
use avr_image::{Image, Pieces};
use avr_records::{Kind, SrecWriter, Writer, detect, needed_size, read_record, read_records};
use std::alloc::Global;
use std::io::{self, BufWriter, Write};

/// The size of an ATmega328P's flash memory in bytes.
const SIZE: u32 = 32_768;

const FIRMWARE: &[u8] = b":0400000001020304F2\n:0401000011121314B1\n:00000001FF\n";
const PATCH: &[u8] = b"S1050002AABB93\nS9030000FC\n";
const SERIAL: &[u8] = b"SN-1";

fn main(rt: HostRuntime) -> Result<()> {
    let mut image = read_image(rt.alloc(), FIRMWARE)?;
    let patch = read_image(rt.alloc(), PATCH)?;
    let first = read_record(Kind::Srec, &PATCH[..14])?;
    let size = needed_size(Kind::Srec, PATCH)?;
    let (count, start) = (first.bytes().len(), first.address());
    println!(rt; "the patch begins with {count} bytes at {start:#x}, and needs a memory of {size}")?;
    if let Some(at) = image.first_overlap(&patch) {
        let hidden = image.get(at).unwrap_or(0xFF);
        println!(rt; "two bytes hide others, the first at {at:#x}: {hidden:02X}")?;
    }
    image.lay_over(&patch)?;
    if let Some(last) = image.last_held() {
        image.remove(last);
    }
    image.put_slice(0x7F00, SERIAL)?;
    let mut out = BufWriter::new(rt.alloc(), io::writer(&rt))?;
    Writer::new(Kind::Ihex, &image).write_to(&mut out)?;
    out.write_all(SrecWriter::new(0x7F00, SERIAL).to_vec(rt.alloc())?.as_slice())?;
    out.flush()?;
    Ok(())
}

/// Reads a record file; its kind is detected.
fn read_image(alloc: Global, text: &[u8]) -> Result<Image> {
    let Some(kind) = detect(text).kind() else {
        bail!("this is no record file");
    };
    let (image, _) = read_records(alloc, kind, SIZE, text)?;
    Ok(image)
}
