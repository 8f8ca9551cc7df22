// crates: anyhow avr_tool
//! Shows the progress of a run in percent, and its messages as they are printed, as a program with a window does.
//!
//! `WatchedDesk` and `WatchedLink` wrap a desk and a link, and report each call to a watcher; the run is the same.
//! `frame_count` returns the number of frames before the first one is sent. Nothing is proved about these watchers, so
//! their `after` is `Unit {0}`.
//!
//! The expected output was worked out by hand from docs/PROTOCOL. Five frames open a session: SIGN_ON, ENTER_PROGMODE
//! and three for the signature. One frame writes the fuse, one reads it, and one leaves programming mode. The messages
//! are those of docs/TROUBLESHOOTING.
//= opened fuse.hex
//= 12% 25% 37% 50% 62% avrstk: device signature = 1E 95 0F
//= 75% avrstk: lfuse: 1 bytes written
//= 87% avrstk: lfuse: 1 bytes verified
//= 100% avrstk: done
//= status 0, 8 of 8 frames
#![tactic(auto)]

use anyhow::{Result, bail};
use avr_tool::{
    Chip, DeskCall, Fates, LinkCall, MemDesk, Parts, Stream, WatchDesk, WatchLink, WatchedDesk, WatchedLink, Wired,
    asked, drive_outcome, frame_count, plan,
};
use std::alloc::Global;
use std::io::{self, Write};

const WORDS: [&str; 7] = ["avrstk", "-P", "stdio:", "-p", "m328p", "-U", "lfuse:w:fuse.hex"];

/// Writes how much of a run is done: `sent` of `all` frames.
#[derive(Drop)]
struct Progress<W> {
    out: W,
    sent: u64,
    all: u64,
}

impl<W: Write> WatchLink for Progress<W> {
    ghost after = { λ call old new. Unit {0} };

    fn on_call(&mut self, call: &LinkCall<'_>) {
        if let LinkCall::Sent(_, Ok(_)) = call {
            self.sent += 1;
            let _ = write!(self.out, "{}% ", self.sent * 100 / self.all);
        }
    }
}

/// Writes the messages, and the names of files that are opened.
#[derive(Drop)]
struct Notes<W> {
    out: W,
}

impl<W: Write> WatchDesk for Notes<W> {
    ghost after = { λ call old new. Unit {0} };

    fn on_call(&mut self, call: &DeskCall<'_>) {
        let _ = match call {
            DeskCall::Opened(name, Ok(())) => writeln!(self.out, "opened {name}"),
            DeskCall::Wrote(Stream::Messages, bytes, _) => self.out.write_all(bytes),
            _ => Ok(()),
        };
    }
}

fn main(rt: HostRuntime) -> Result<()> {
    let alloc = rt.alloc();
    let mut files = MemDesk::empty(alloc);
    files.put("fuse.hex", b":01000000629D\n:00000001FF\n")?;
    let words = words(alloc)?;
    let Ok(settings) = asked(alloc, words.as_slice(), &mut files) else {
        bail!("this is no command line of avrstk");
    };
    let chip = Chip::fresh(alloc, Parts::none().find("m328p")?)?;
    let mut desk = WatchedDesk { desk: files, watcher: Notes { out: io::writer(&rt) } };
    let Ok(plan) = plan(alloc, &settings, &mut desk) else {
        bail!("there is no plan");
    };
    let mut link = WatchedLink {
        link: Wired::with_fates(alloc, chip, Fates::none(alloc)),
        watcher: Progress { out: io::writer(&rt), sent: 0, all: frame_count(&plan) },
    };
    let outcome = drive_outcome(alloc, &plan, &mut desk, &mut link);
    let Progress { sent, all, .. } = link.watcher;
    println!(rt; "status {}, {sent} of {all} frames", outcome.status())?;
    Ok(())
}

/// Returns the arguments as a program gets them.
fn words(alloc: Global) -> Result<Vec<String>> {
    let mut words = Vec::new(alloc);
    for word in WORDS {
        words.push(String::from_str(alloc, word)?)?;
    }
    Ok(words)
}
