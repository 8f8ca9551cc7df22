// crates: anyhow avr_tool
//! Runs a command line of `avrstk` with files, messages and the programmer in memory, so that a test needs no process
//! and no files. `asked` reads the settings from the arguments, and `run_wired` carries them out over a wire, which
//! here loses the first reply. (`run` does so over any link.) The port `stdio:` of the arguments stands for the wire.
//!
//! The expected output was worked out by hand: the fuse is the byte that was written, in the format of docs/FORMATS,
//! and the messages are those of docs/TROUBLESHOOTING.
//= status 0
//= fuse.txt: 0xe2
//= avrstk: device signature = 1E 95 0F
//= avrstk: chip erased
//= avrstk: flash: 4 bytes written
//= avrstk: flash: 4 bytes verified
//= avrstk: lfuse: 1 bytes written
//= avrstk: lfuse: 1 bytes verified
//= avrstk: lfuse: 1 bytes read
//= avrstk: done
#![tactic(auto)]

use anyhow::{Result, bail};
use avr_tool::{Chip, Fate, Fates, MemDesk, Parts, Wired, asked, run_wired};
use std::alloc::Global;
use std::io::{self, Write};

const WORDS: [&str; 11] = [
    "avrstk",
    "-P",
    "stdio:",
    "-p",
    "m328p",
    "-U",
    "flash:w:a.hex",
    "-U",
    "lfuse:w:0xE2:m",
    "-U",
    "lfuse:r:fuse.txt:h",
];

fn main(rt: HostRuntime) -> Result<()> {
    let alloc = rt.alloc();
    let mut desk = MemDesk::empty(alloc);
    desk.put("a.hex", b":0400000001020304F2\n:00000001FF\n")?;
    let words = words(alloc)?;
    let Ok(settings) = asked(alloc, words.as_slice(), &mut desk) else {
        bail!("this is no command line of avrstk");
    };
    let chip = Chip::fresh(alloc, Parts::none().find("m328p")?)?;
    let mut fates = Fates::none(alloc);
    fates.push(Fate::LostAnswer)?;
    let mut wire = Wired::with_fates(alloc, chip, fates);
    let status = run_wired(alloc, &settings, &mut desk, &mut wire);
    println!(rt; "status {status}")?;
    let mut out = io::writer(&rt);
    out.write_all(b"fuse.txt: ")?;
    out.write_all(desk.file("fuse.txt").unwrap_or(b"none\n"))?;
    out.write_all(desk.messages())?;
    Ok(())
}

/// Returns the arguments as a program gets them.
fn words(alloc: Global) -> Result<Vec<String>> {
    let mut words = Vec::new(alloc);
    for word in WORDS {
        words.push(String::from_str(alloc, word)?)?;
    }
    Ok(words)
}
