//! Sessions with the emulated programmer, in pieces of six sizes and over bad wires; and the commands that only
//! AVRDUDE sends.
ghost use Rattle.std.specs.Prelude.{◌<◌, ◌≤◌, length};

use arrayvec::ArrayVec;
use avr_part::{Chip, Mem, Parts};
use std::alloc::{AllocError, Global};
use std::fmt::Write;
use std::test::Fail;
use stk_emu::{Emulator, Fate, Fates, FatesFault, Wired, noise_is_lawful};
use stk_frame::{Command, put_frame};
use stk_host::{Heard, Host, HostFault, Link};
use crate::data::{REPLIES, FRAMES};

/// Returns all replies to these bytes, fed in pieces of this size.
fn replies(
    alloc: Global,
    emulator: &mut Emulator,
    bytes: &[u8],
    size: usize,
) -> Result<Vec<u8>, AllocError>
    requires { 0 < size }
{
    let mut all = Vec::new(alloc);
    for piece in bytes.chunks(size) {
        emulator.reply_to_all(piece, &mut all)?;
    }
    Ok(all)
}

/// Returns the reply to a frame with this body.
fn reply_to(emulator: &mut Emulator, body: &[u8]) -> ArrayVec<u8, 281>
    requires some { 0 < length body.now }
    requires fits { length body.now ≤ 275 }
{
    let mut frame = ArrayVec::new();
    put_frame(7, body, &mut frame);
    let mut out = ArrayVec::new();
    emulator.feed(frame.as_slice(), &mut out);
    out
}

/// Returns whether the reply to `body` has the body `want` and the frame's sequence number.
fn replies_with(emulator: &mut Emulator, body: &[u8], want: &[u8]) -> bool
    requires some { 0 < length body.now }
    requires fits { length body.now ≤ 275 }
    requires wanted { 0 < length want.now }
    requires want_fits { length want.now ≤ 275 }
{
    let mut frame = ArrayVec::new();
    put_frame(7, want, &mut frame);
    reply_to(emulator, body).as_slice() == frame.as_slice()
}

fn emulator(alloc: Global, id: &str) -> Result<Emulator, avr_part::PartFault> {
    Ok(Emulator::new(Chip::fresh(alloc, Parts::none().find(id)?)?))
}

const ENTER: [u8; 12] = [
    0x10, 0xC8, 0x64, 0x19, 0x20, 0x00, 0x53, 0x03, 0xAC, 0x53, 0x00, 0x00,
];

/// Returns the replies to the worked session, sent in pieces of `size` bytes to a programmer with a new ATmega328P.
fn session_in_pieces(alloc: Global, size: usize) -> Result<Vec<u8>, Fail>
    requires { 0 < size }
{
    let mut emulator = emulator(alloc, "m328p")?;
    Ok(replies(alloc, &mut emulator, &FRAMES, size)?)
}

#[test]
fn a_session_gets_the_same_replies_in_pieces_of_any_size(rt: HostRuntime) -> Result<(), Fail> {
    for size in [1, 2, 3, 5, 280, 281] {
        let all = session_in_pieces(rt.alloc(), size)?;
        assert_eq!(rt; all.as_slice(), REPLIES.as_slice(), "in pieces of {size}");
    }
    Ok(())
}

/// The command 05 is unknown. The last byte of the second frame is spoiled.
#[test]
fn unknown_and_spoiled_frames_are_told_apart(rt: HostRuntime) -> Result<(), Fail> {
    let rows = [
        ("1B0900010E0518", "1B0900020E05C9D2"),
        ("1B0900010E0519", "1B0900020EB0C16F"),
    ];
    let alloc = rt.alloc();
    for size in [1, 2, 3, 5, 280, 281] {
        let mut emulator = emulator(alloc, "m328p")?;
        for (frame, reply) in rows {
            let frame = hex::decode(alloc, frame)?;
            let all = replies(alloc, &mut emulator, frame.as_slice(), size)?;
            assert_eq!(rt; all.as_slice(), hex::decode(alloc, reply)?.as_slice(), "in pieces of {size}");
        }
    }
    Ok(())
}

#[test]
fn commands_are_obeyed(rt: HostRuntime) -> Result<(), Fail> {
    let mut e = emulator(rt.alloc(), "m328p")?;
    assert!(rt; replies_with(&mut e, &[0x02, 0x98, 0x05], &[0x02, 0x00]));
    assert!(rt; replies_with(&mut e, &[0x03, 0x98], &[0x03, 0x00, 0x05]));
    assert!(rt; replies_with(&mut e, &[0x1D, 4, 4, 0, 0x30, 0, 1, 0], &[0x1D, 0xC0]));
    assert!(rt; replies_with(&mut e, &ENTER, &[0x10, 0x00]));
    assert!(rt;
        replies_with(
            &mut e,
            &[0x1D, 4, 4, 0, 0x30, 0, 1, 0],
            &[0x1D, 0, 0, 0x30, 0, 0x95, 0]
        )
    );
    assert!(rt; replies_with(&mut e, &[0x1D, 4, 1, 3, 0x30, 0, 1, 0], &[0x1D, 0, 0x95, 0]));
    assert!(rt; replies_with(&mut e, &[0x17, 0xAC, 0xA0, 0x00], &[0x17, 0xC0]));
    assert!(rt; replies_with(&mut e, &[0x06, 0, 0, 0, 0], &[0x06, 0]));
    let page = [
        0x13, 0, 2, 0xC1, 0x0A, 0x40, 0x4C, 0x20, 0xFF, 0xFF, 0x12, 0x34,
    ];
    assert!(rt; replies_with(&mut e, &page, &[0x13, 0]));
    assert!(rt; replies_with(&mut e, &[0x06, 0, 0, 0, 0], &[0x06, 0]));
    assert!(rt; replies_with(&mut e, &[0x14, 0, 2, 0x20], &[0x14, 0, 0x12, 0x34, 0]));
    assert!(rt; replies_with(&mut e, &[0x14, 0, 2, 0x20], &[0x14, 0, 0xFF, 0xFF, 0]));
    assert!(rt; replies_with(&mut e, &[0x06, 0x80, 0, 0, 0], &[0x06, 0]));
    let enter = [
        0x10, 0xC8, 0x64, 0x19, 0x20, 0x00, 0x53, 0x05, 0xAC, 0x53, 0x00, 0x00,
    ];
    assert!(rt; replies_with(&mut e, &enter, &[0x10, 0xC0]));
    Ok(())
}

/// The frames of the commands and of their replies, byte for byte.
#[test]
fn a_parameter_is_given_back(rt: HostRuntime) -> Result<(), Fail> {
    let mut e = emulator(rt.alloc(), "m328p")?;
    let mut out = ArrayVec::new();
    for (frame, reply) in [
        ("1B0300030E0298058A", "1B0300020E020016"),
        ("1B0400020E039888", "1B0400030E03000514"),
    ] {
        e.feed(hex::decode(rt.alloc(), frame)?.as_slice(), &mut out);
        assert_eq!(rt; out.as_slice(), hex::decode(rt.alloc(), reply)?.as_slice());
    }
    Ok(())
}

#[test]
fn flash_above_the_extended_address_is_written(rt: HostRuntime) -> Result<(), Fail> {
    let mut e = emulator(rt.alloc(), "m2560")?;
    assert!(rt; replies_with(&mut e, &ENTER, &[0x10, 0x00]));
    let mut out = ArrayVec::new();
    let load = [
        0x1B, 0x07, 0x00, 0x05, 0x0E, 0x06, 0x80, 0x01, 0x00, 0x00, 0x90,
    ];
    e.feed(&load, &mut out);
    assert_eq!(rt;
        out.as_slice(),
        [0x1B, 0x07, 0x00, 0x02, 0x0E, 0x06, 0x00, 0x16].as_slice()
    );
    let mut page = [0xFF; 256];
    page[0] = 0x55;
    let mut body = ArrayVec::new();
    Command::program_page(&page).body(&mut body);
    assert!(rt; replies_with(&mut e, body.as_slice(), &[0x13, 0x00]));
    assert_eq!(rt; e.chip().byte(Mem::Flash, 0x20000), Some(0x55));
    assert_eq!(rt; e.chip().byte(Mem::Flash, 0), Some(0xFF));
    Ok(())
}

/// Commands that AVRDUDE 7 sends and this project's host doesn't.
#[test]
fn habits_of_avrdude_are_served(rt: HostRuntime) -> Result<(), Fail> {
    let mut e = emulator(rt.alloc(), "m328p")?;
    assert!(rt; replies_with(&mut e, &[0x02, 0x9E, 0x01], &[0x02, 0x00]));
    assert!(rt; replies_with(&mut e, &ENTER, &[0x10, 0x00]));
    assert!(rt; replies_with(&mut e, &ENTER, &[0x10, 0x00]));
    for number in 0x90..0x99u8 {
        assert!(rt; replies_with(&mut e, &[0x03, number], &[0x03, 0x00, 0x00]));
    }
    assert!(rt; replies_with(&mut e, &[0x03, 0x9E], &[0x03, 0x00, 0x01]));
    let mut page = [0xFF; 131];
    page[0] = 0x14;
    page[1] = 0x00;
    page[130] = 0x00;
    assert!(rt; replies_with(&mut e, &[0x14, 0x00, 0x80, 0x20], &page));
    let sign_on = [0x1B, 0x01, 0x00, 0x01, 0x0E, 0x01, 0x14];
    let mut first = ArrayVec::new();
    e.feed(&sign_on, &mut first);
    let mut second = ArrayVec::new();
    e.feed(&sign_on, &mut second);
    assert_eq!(rt; first.as_slice(), second.as_slice());
    assert_eq!(rt; first.len(), 17);
    Ok(())
}

#[test]
fn noise_is_judged(rt: HostRuntime) -> Result<(), Fail> {
    assert!(rt; noise_is_lawful(&[0; 2048]));
    assert!(rt; !noise_is_lawful(&[0; 2049]));
    assert!(rt; noise_is_lawful(&[0x1B, 0x02, 0x00]));
    assert!(rt; noise_is_lawful(&[]));
    assert!(rt; noise_is_lawful(&[0x1B, 0x06, 0x00, 0x03, 0x0E, 0x17, 0x00, 0x00, 0x00]));
    assert!(rt; !noise_is_lawful(&[0x1B, 0x06, 0x00, 0x03, 0x0E, 0x17, 0x00, 0x00, 0x07]));
    Ok(())
}

#[test]
fn fates_are_judged(rt: HostRuntime) -> Result<(), Fail> {
    let alloc = rt.alloc();
    let reply = [0x1B, 0x01, 0x00, 0x02, 0x0E, 0x01, 0x00, 0x17];
    let mut fates = Fates::none(alloc);
    assert!(rt; fates.is_empty());
    fates.push(Fate::LostAnswer)?;
    let noise = Vec::from_slice(alloc, &reply[..7])?;
    fates.push(Fate::AnswerSpoiled(noise))?;
    assert_eq!(rt; fates.len(), 2);
    let whole = Vec::from_slice(alloc, &reply)?;
    let fault = FatesFault::UnlawfulNoise;
    assert_eq!(rt; fates.push(Fate::AnswerSpoiled(whole)), Err(fault));
    assert_eq!(rt; fates.len(), 2);
    assert_eq!(rt; fault.number(), 1);
    assert!(rt; format!(in alloc; "{fault}")?.as_str() == "noise is not lawful");
    Ok(())
}

/// Returns `good` good fates, then `lost` lost commands, then `last`.
fn fates(alloc: Global, good: usize, lost: usize, last: Fate) -> Result<Fates, FatesFault> {
    let mut fates = Fates::none(alloc);
    for _good in 0..good {
        fates.push(Fate::Good)?;
    }
    for _lost in 0..lost {
        fates.push(Fate::LostCommand)?;
    }
    fates.push(last)?;
    Ok(fates)
}

fn m328p(alloc: Global) -> Result<Chip, avr_part::PartFault> {
    Chip::fresh(alloc, Parts::none().find("m328p")?)
}

#[test]
fn a_refused_command_is_sent_again(rt: HostRuntime) -> Result<(), Fail> {
    let fates = fates(rt.alloc(), 0, 0, Fate::CommandRefused)?;
    let mut link = Wired::with_fates(rt.alloc(), m328p(rt.alloc())?, fates);
    let mut host = Host::new(Parts::none().find("m328p")?);
    assert_eq!(rt; host.open(&mut link, false), Ok([0x1E, 0x95, 0x0F]));
    assert_eq!(rt; host.close(&mut link), Ok(()));
    assert_eq!(rt; link.sent().len(), 77);
    let leave = [0x1B, 0x07, 0x00, 0x03, 0x0E, 0x11, 0x01, 0x01, 0x00];
    assert!(rt; link.sent().ends_with(&leave));
    Ok(())
}

#[test]
fn nothing_is_obeyed_where_all_is_lost(rt: HostRuntime) -> Result<(), Fail> {
    let fates = fates(rt.alloc(), 0, 3, Fate::LostCommand)?;
    let mut link = Wired::with_fates(rt.alloc(), m328p(rt.alloc())?, fates);
    let mut host = Host::new(Parts::none().find("m328p")?);
    assert_eq!(rt; host.open(&mut link, false), Err(HostFault::NoAnswer));
    assert_eq!(rt; host.close(&mut link), Ok(()));
    let leave = [0x1B, 0x05, 0x00, 0x03, 0x0E, 0x11, 0x01, 0x01, 0x02];
    assert_eq!(rt; link.sent().len(), 37);
    assert!(rt; link.sent().ends_with(&leave));
    Ok(())
}

#[test]
fn a_programmer_that_begins_anew_is_outside_the_mode(rt: HostRuntime) -> Result<(), Fail> {
    let fates = fates(rt.alloc(), 2, 0, Fate::Reset)?;
    let mut link = Wired::with_fates(rt.alloc(), m328p(rt.alloc())?, fates);
    let mut host = Host::new(Parts::none().find("m328p")?);
    assert_eq!(rt;
        host.open(&mut link, false),
        Err(HostFault::Refused(0x1B, 0xC0))
    );
    assert_eq!(rt; host.close(&mut link), Ok(()));
    Ok(())
}

/// Returns whether a session succeeds if one frame has a fate of this kind; `place` counts the frames before it.
fn gets_through(alloc: Global, place: usize, kind: usize) -> Result<bool, Fail> {
    let fate = match kind {
        0 => Fate::Good,
        1 => Fate::LostCommand,
        2 => Fate::LostAnswer,
        3 => Fate::LateAnswer,
        4 => Fate::CommandRefused,
        5 => Fate::HeldAnswer,
        _ => {
            let noise = [0x1B, 0x06, 0x00, 0x03, 0x0E, 0x17, 0x00, 0x00, 0x00];
            Fate::AnswerSpoiled(Vec::from_slice(alloc, &noise)?)
        }
    };
    let mut link = Wired::with_fates(alloc, m328p(alloc)?, fates(alloc, place, 0, fate)?);
    let mut host = Host::new(Parts::none().find("m328p")?);
    let opened = host.open(&mut link, false) == Ok([0x1E, 0x95, 0x0F]);
    let closed = host.close(&mut link) == Ok(());
    Ok(opened && closed && link.chip().byte(Mem::Flash, 0) == Some(0xFF))
}

#[test]
fn a_session_gets_through_every_fate(rt: HostRuntime) -> Result<(), Fail> {
    for place in 0..6usize {
        for kind in 0..7usize {
            assert!(rt;
                gets_through(rt.alloc(), place, kind)?,
                "frame {place}, fate {kind}"
            );
        }
    }
    Ok(())
}

#[test]
fn a_late_reply_comes_before_the_next(rt: HostRuntime) -> Result<(), Fail> {
    let alloc = rt.alloc();
    let mut link = Wired::with_fates(alloc, m328p(alloc)?, fates(alloc, 0, 0, Fate::LateAnswer)?);
    let mut buffer = [0; 64];
    assert_eq!(rt; link.recv(&mut buffer), Ok(Heard::Silence));
    assert_eq!(rt; link.send(&FRAMES), Ok(7));
    assert_eq!(rt; link.recv(&mut buffer), Ok(Heard::Silence));
    assert_eq!(rt; link.send(&FRAMES[7..25]), Ok(18));
    assert_eq!(rt; link.recv(&mut buffer), Ok(Heard::Bytes(25)));
    assert!(rt; buffer.starts_with(&REPLIES[..25]));
    assert_eq!(rt; link.recv(&mut buffer), Ok(Heard::Silence));
    Ok(())
}

fn fate(letter: u8) -> Fate {
    match letter {
        b'H' => Fate::HeldAnswer,
        b'A' => Fate::LateAnswer,
        b'L' => Fate::LostAnswer,
        b'R' => Fate::Reset,
        _ => Fate::Good,
    }
}

/// Sends frames 1 to 5 over a wire with these fates, a letter each. Returns what is received: the number of each reply,
/// a dot for each timeout.
fn brought(alloc: Global, letters: &str, count: usize) -> Result<String, Fail> {
    let mut fates = Fates::none(alloc);
    for letter in letters.bytes() {
        fates.push(fate(letter))?;
    }
    let mut link = Wired::with_fates(alloc, m328p(alloc)?, fates);
    for number in 1..6u8 {
        let mut frame = ArrayVec::new();
        put_frame(number, &[0x05], &mut frame);
        link.send(frame.as_slice())?;
    }
    let mut items = String::new(alloc);
    let mut reply = [0; 8];
    for _ in 0..count {
        match link.recv(&mut reply)? {
            Heard::Bytes(_) => write!(items, "{}", reply[1])?,
            _ => write!(items, ".")?,
        }
    }
    Ok(items)
}

#[test]
fn replies_that_wait_come_in_their_order(rt: HostRuntime) -> Result<(), Fail> {
    for (letters, items) in [
        ("HHG", "..12345"),
        ("AHL", "..12.45"),
        ("HA", ".1.2345"),
        ("HHHH", "....2345"),
        ("HR", ".1.345"),
    ] {
        assert_eq!(rt; brought(rt.alloc(), letters, items.len())?.as_str(), items);
    }
    Ok(())
}
