// crates: anyhow avr_image avr_part avr_records
//! Puts a serial number into the firmware of a record file, and changes nothing else. `put_serial_number` has a contract
//! of its own. It rests on contracts and laws of avr_image alone: a call of a law in the body brings in what it states.
//! tests/vendor.py proves it in another repository.
//!
//! The expected output was worked out by hand. With its checksum, the bytes of a line add up to 00 in Intel HEX.
//= :050000000102A1A2A312
//= :00000001FF
//= 8191 is no place for it: address 00002000 out of range
#![tactic(auto)]

ghost use Rattle.std.specs.Prelude.{◌≡◌, ◌<◌, ◌≤◌, ◌+◌, ℕ, length, max, slice_index_or, if◌then◌else◌, Some, Ok, Err, OnOk, OnErr};
ghost use Rattle.avr_image.specs.Image.{byte_at, fits};

use anyhow::{Result, bail};
use avr_image::{Image, ImageFault, Pieces, a_span_is_by_address, bytes_fit_below_the_size};
use avr_part::{Mem, Parts};
use avr_records::{Kind, Writer, detect, read_records};
use std::io::{self, Write};

const FIRMWARE: &[u8] = b"S107000001020304EE\nS9030000FC\n";
const SERIAL: [u8; 3] = [0xA1, 0xA2, 0xA3];

/// Puts a serial number into an image, from the byte address `at` on.
///
/// # Errors
///
/// [`ImageFault::OutOfRange`] if it isn't wholly inside the image, which is then unchanged.
pub fn put_serial_number(
    image: &mut Image,
    at: u32,
    serial: &[u8],
) -> std::result::Result<(), ImageFault>
    ensures verdict { result ≡ (if fits at serial.now (length image.old) then Ok tt
        else Err (ImageFault.OutOfRange (max at (length image.old)))) }
    ensures inside { OnOk result ((place : ℕ) → place < length serial.now
        → byte_at image.new (at + place) ≡ Some (slice_index_or serial.now place 0)) }
    ensures below { OnOk result ((other : ℕ) → other < at → byte_at image.new other ≡ byte_at image.old other) }
    ensures above { OnOk result ((other : ℕ) → at + length serial.now ≤ other
        → byte_at image.new other ≡ byte_at image.old other) }
    ensures same { OnErr result (image.new ≡ image.old) }
{
    a_span_is_by_address();
    bytes_fit_below_the_size();
    image.put_slice(at, serial)?;
    Ok(())
}

fn main(rt: HostRuntime) -> Result<()> {
    let part = Parts::none().find("t85")?;
    let Some(kind) = detect(FIRMWARE).kind() else {
        bail!("this is no record file");
    };
    let size = part.size_of(Mem::Flash);
    let (mut image, _) = read_records(rt.alloc(), kind, size, FIRMWARE)?;
    put_serial_number(&mut image, 2, SERIAL.as_slice())?;
    let mut out = io::writer(&rt);
    Writer::new(Kind::Ihex, &image).write_to(&mut out)?;
    out.flush()?;
    if let Err(fault) = put_serial_number(&mut image, size - 1, SERIAL.as_slice()) {
        println!(rt; "{} is no place for it: {fault}", size - 1)?;
    }
    Ok(())
}
