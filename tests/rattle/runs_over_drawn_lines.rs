//! Whole runs by `run_wired` over links with pseudorandom fates, compared with a plain rule.

use crate::support::{Over, desk_with, is_blank, run_wired_on};
use avr_part::{Chip, Mem};
use avr_tool::{Fate, Fates, MemDesk, Wired};
use std::alloc::{AllocError, Global};
use std::process::Abort;
use std::test::Fail;

/// This number and all above it draw a good fate.
const GOOD: u32 = 13;

/// The number that draws a reset.
const RESET: u32 = 12;

/// Returns the fate that replaces a reply by a frame with this XOR. The right XOR, 07, is never drawn.
fn spoiled(alloc: Global, xor: u8) -> Result<Fate, AllocError> {
    let noise = [0x1B, 0x06, 0x00, 0x03, 0x0E, 0x17, 0x00, 0x00, xor];
    Ok(Fate::AnswerSpoiled(Vec::from_slice(alloc, &noise)?))
}

/// Returns the fate that a number draws.
fn fate_drawn(alloc: Global, number: u32) -> Result<Fate, AllocError> {
    match number {
        0 | 1 => Ok(Fate::LostCommand),
        2 | 3 => Ok(Fate::LostAnswer),
        4 | 5 => Ok(Fate::LateAnswer),
        6 | 7 => Ok(Fate::HeldAnswer),
        8 | 9 => Ok(Fate::CommandRefused),
        10 => spoiled(alloc, 0x08),
        11 => spoiled(alloc, 0x00),
        RESET => Ok(Fate::Reset),
        _ => Ok(Fate::Good),
    }
}

/// Returns sixty numbers of a linear congruential generator. With an even seed 13 of 48 numbers draw a bad fate, with
/// an odd one 13 of 192.
fn numbers_drawn(alloc: Global, seed: u32) -> Result<Vec<u32>, AllocError> {
    let all = if seed % 2 == 0 { 48 } else { 192 };
    let mut state = seed.wrapping_mul(0x9E37_79B9);
    let mut numbers = Vec::new(alloc);
    for _drawn in 0..60 {
        state = state.wrapping_mul(1_664_525).wrapping_add(1_013_904_223);
        numbers.push(state / 0x10000 % all)?;
    }
    Ok(numbers)
}

/// Returns the fates that these numbers draw.
fn fates_drawn(alloc: Global, numbers: &[u32]) -> Result<Fates, Fail> {
    let mut fates = Fates::none(alloc);
    for number in numbers {
        fates.push(fate_drawn(alloc, *number)?)?;
    }
    Ok(fates)
}

/// Returns whether no number draws a reset, and at most three of any seven in a row draw a bad fate.
fn are_few(numbers: &[u32]) -> bool {
    !numbers.contains(&RESET) && numbers.windows(7).all(|seven| bad_in(seven) <= 3)
}

fn bad_in(numbers: &[u32]) -> usize {
    numbers.iter().filter(|number| **number < GOOD).count()
}

/// The image to write: no byte is FF, so that each write is seen.
const IMAGE: [u8; 16] = [
    0x10, 0x21, 0x32, 0x43, 0x54, 0x65, 0x76, 0x87, 0x98, 0xA9, 0xBA, 0xCB, 0xDC, 0xED, 0xFE, 0x0F,
];

/// The messages of a run that does everything.
const DONE: &[u8] = b"avrstk: device signature = 1E 93 0B
avrstk: eeprom: 16 bytes written
avrstk: eeprom: 16 bytes verified
avrstk: lfuse: 1 bytes written
avrstk: lfuse: 1 bytes verified
avrstk: done
";

/// Writes the image and a fuse to an ATtiny85, over a link with these fates, and verifies them.
fn run_over(alloc: Global, fates: Fates) -> Result<Over<MemDesk, Wired>, Fail> {
    let words = [
        "-p",
        "t85",
        "-U",
        "eeprom:w:e.bin:r",
        "-U",
        "lfuse:w:0x62:m",
    ];
    let desk = desk_with(alloc, &[("e.bin", IMAGE.as_slice())])?;
    run_wired_on(alloc, "t85", &words, desk, fates)
}

/// Returns how many pages of the EEPROM (four bytes each) hold the image, if all pages after them are FF.
fn pages_written(chip: &Chip) -> Option<u32> {
    let mut pages = 0u32;
    let mut is_untouched = false;
    for address in 0..512u32 {
        let byte = chip.byte(Mem::Eeprom, address);
        if address % 4 == 0 && !is_untouched {
            is_untouched = byte == Some(0xFF);
            pages = address / 4;
        }
        let wanted = if is_untouched {
            Some(0xFF)
        } else {
            IMAGE.get(address as usize).copied()
        };
        if byte != wanted {
            return None;
        }
    }
    Some(pages)
}

/// Checks that whole pages were written in rising order, then the fuse, and nothing else. Returns the number of pages.
fn look_at_chip(rt: &impl Abort, over: &Over<MemDesk, Wired>, seed: u32) -> Option<u32> {
    let chip = over.link.chip();
    let pages = pages_written(chip);
    let fuse = chip.byte(Mem::Lfuse, 0);
    let is_whole = pages == Some(4) && fuse == Some(0x62);
    let others = [Mem::Flash, Mem::Hfuse, Mem::Efuse, Mem::Lock];
    assert!(rt; pages.is_some(), "seed {seed}");
    assert!(rt; is_whole || fuse == Some(0xFF), "seed {seed}");
    assert!(rt; is_whole || over.status == 1, "seed {seed}");
    assert!(rt; is_blank(chip, &others), "seed {seed}");
    pages
}

/// Checks that the status is 0 if the messages are those of a good link, and 1 if not; that it is 0 if few frames fail;
/// and that at most four times as much is sent as over a good link.
fn look_at_outcome(
    rt: &impl Abort,
    over: &Over<MemDesk, Wired>,
    good: &Over<MemDesk, Wired>,
    is_few: bool,
    seed: u32,
) {
    let is_done = over.desk.messages() == DONE;
    assert!(rt; over.status == 1 || over.status == 0, "seed {seed}");
    assert!(rt; is_done == (over.status == 0), "seed {seed}");
    assert!(rt; is_done || !is_few, "seed {seed}");
    assert!(rt;
        over.link.sent().len() / 4 <= good.link.sent().len(),
        "seed {seed}"
    );
}

/// Counts runs by how they ended; `few` counts the links on which few frames fail.
#[derive(Drop)]
struct Counts {
    sound: u32,
    stopped: u32,
    partly: u32,
    few: u32,
}

/// Runs over the link of this seed, and checks and counts the run.
fn try_seed(
    rt: &impl Abort,
    alloc: Global,
    good: &Over<MemDesk, Wired>,
    seed: u32,
    counts: &mut Counts,
) -> Result<(), Fail> {
    let numbers = numbers_drawn(alloc, seed)?;
    let is_few = are_few(numbers.as_slice());
    let over = run_over(alloc, fates_drawn(alloc, numbers.as_slice())?)?;
    let pages = look_at_chip(rt, &over, seed);
    look_at_outcome(rt, &over, good, is_few, seed);
    let is_partly = pages != Some(0) && pages != Some(4);
    counts.sound = counts.sound.saturating_add((over.status == 0) as u32);
    counts.stopped = counts.stopped.saturating_add((over.status == 1) as u32);
    counts.partly = counts.partly.saturating_add(is_partly as u32);
    counts.few = counts.few.saturating_add(is_few as u32);
    Ok(())
}

/// The seeds give every kind of run: complete, stopped, and stopped in the middle of the pages.
#[test]
fn drawn_fates_leave_a_prefix(rt: HostRuntime) -> Result<(), Fail> {
    let good = run_over(rt.alloc(), Fates::none(rt.alloc()))?;
    let mut counts = Counts {
        sound: 0,
        stopped: 0,
        partly: 0,
        few: 0,
    };
    for seed in 0..60u32 {
        try_seed(&rt, rt.alloc(), &good, seed, &mut counts)?;
    }
    assert!(rt; good.status == 0 && counts.sound > counts.few);
    assert!(rt; counts.stopped > 0 && counts.partly > 0 && counts.few > 0);
    Ok(())
}
