//! Frames in pieces, timeouts, and a link of which each call fails in turn.
use avr_part::{Chip, PartFault, Parts};
use avr_tool::{Served, serve_link};
use std::alloc::{AllocError, Global};
use std::test::Fail;
use stk_emu::Emulator;
use stk_host::{FailingLink, Item, TapeLink};

/// Two frames with a command that no programmer knows, numbered 9 and 10.
const FRAMES: [u8; 14] = [
    0x1B, 0x09, 0x00, 0x01, 0x0E, 0x05, 0x18, 0x1B, 0x0A, 0x00, 0x01, 0x0E, 0x05, 0x1B,
];

/// The replies of any programmer to them.
const REPLIES: [u8; 16] = [
    0x1B, 0x09, 0x00, 0x02, 0x0E, 0x05, 0xC9, 0xD2, 0x1B, 0x0A, 0x00, 0x02, 0x0E, 0x05, 0xC9, 0xD1,
];

fn emulator(alloc: Global) -> Result<Emulator, PartFault> {
    Ok(Emulator::new(Chip::fresh(alloc, Parts::none().find("m328p")?)?))
}

fn add_bytes(items: &mut Vec<Item>, bytes: &[u8]) -> Result<(), AllocError> {
    for byte in bytes {
        items.push(Item::Byte(*byte))?;
    }
    Ok(())
}

#[test]
fn a_frame_gets_its_reply_over_a_silence(rt: HostRuntime) -> Result<(), Fail> {
    let mut items = Vec::new(rt.alloc());
    add_bytes(&mut items, &FRAMES[..6])?;
    items.push(Item::Silence)?;
    add_bytes(&mut items, &FRAMES[6..7])?;
    items.push(Item::End)?;
    let mut link = TapeLink::new(rt.alloc(), items, 281);
    let served = serve_link(&mut emulator(rt.alloc())?, &mut link, 100);
    assert_eq!(rt; served, Served::Ended);
    assert_eq!(rt; link.sent(), &REPLIES[..8]);
    Ok(())
}

#[test]
fn silences_use_up_the_turns(rt: HostRuntime) -> Result<(), Fail> {
    let items = vec![in rt.alloc(); Item::Silence; 5]?;
    let mut link = TapeLink::new(rt.alloc(), items, 281);
    let served = serve_link(&mut emulator(rt.alloc())?, &mut link, 3);
    assert_eq!(rt; served, Served::TooManyReads);
    assert!(rt; link.sent().is_empty());
    Ok(())
}

/// The call of the link that fails (it passes five bytes at once), how serving ends, and how many bytes were sent.
const ENDS: [(u64, Served, usize); 9] = [
    (1, Served::RecvFailed, 0),
    (2, Served::RecvFailed, 0),
    (3, Served::SendFailed, 0),
    (4, Served::SendFailed, 5),
    (5, Served::RecvFailed, 8),
    (6, Served::SendFailed, 8),
    (7, Served::SendFailed, 13),
    (8, Served::RecvFailed, 16),
    (0, Served::Ended, 16),
];

#[test]
fn every_call_of_the_link_fails_in_turn(rt: HostRuntime) -> Result<(), Fail> {
    for (call, end, count) in &ENDS {
        let mut items = Vec::new(rt.alloc());
        add_bytes(&mut items, &FRAMES)?;
        let mut link = FailingLink::new(TapeLink::new(rt.alloc(), items, 281), *call, 5);
        let served = serve_link(&mut emulator(rt.alloc())?, &mut link, 100);
        assert_eq!(rt; served, *end, "call {call}");
        assert_eq!(rt; link.inner().sent().len(), *count, "call {call}");
        assert!(rt; REPLIES.starts_with(link.inner().sent()), "call {call}");
    }
    Ok(())
}
