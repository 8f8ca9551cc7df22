//! Worked sessions with an ATmega328P; the frames are those of AVR068 (STK500 protocol, version 2).
use avr_part::{PartFault, Parts};
use std::alloc::{AllocError, Global};
use std::io;
use std::io::{ErrorKind, Read, Write};
use std::process::Abort;
use std::test::Fail;
use stk_host::{FailingLink, Heard, Host, HostFault, Item, Link, LinkFault, StreamLink, TapeLink};
use crate::data::{REPLIES, FRAMES};

const SIGNATURE: [u8; 3] = [0x1E, 0x95, 0x0F];

fn host() -> Result<Host, PartFault> {
    let part = Parts::none().find("m328p")?;
    Ok(Host::new(part))
}

/// Returns a link that gives these bytes, then ends.
fn replying(alloc: Global, bytes: &[u8]) -> Result<TapeLink, AllocError> {
    let mut items = Vec::new(alloc);
    for byte in bytes {
        items.push(Item::Byte(*byte))?;
    }
    Ok(TapeLink::new(alloc, items, 281))
}

/// Opens and closes a session over these replies; checks the outcome and all that was sent.
fn session(
    rt: &impl Abort,
    alloc: Global,
    replies: &[u8],
    force: bool,
    outcome: Result<[u8; 3], HostFault>,
    sent: &[u8],
) -> Result<(), Fail> {
    let mut link = replying(alloc, replies)?;
    let mut host = host()?;
    let opened = host.open(&mut link, force);
    let _ = host.close(&mut link);
    assert!(rt; opened == outcome);
    assert_eq!(rt; link.sent(), sent);
    Ok(())
}

#[test]
fn opens_and_closes_in_pieces_of_any_size(rt: HostRuntime) -> Result<(), Fail> {
    for cut in [1usize, 2, 5, 280, 281] {
        let mut link = FailingLink::new(replying(rt.alloc(), &REPLIES)?, 0, cut.max(1));
        let mut host = host()?;
        assert!(rt; host.open(&mut link, false) == Ok(SIGNATURE), "cut {cut}");
        assert!(rt; host.close(&mut link) == Ok(()), "cut {cut}");
        assert_eq!(rt; link.inner().sent(), FRAMES.as_slice());
    }
    Ok(())
}

#[test]
fn every_call_of_the_link_fails_in_turn(rt: HostRuntime) -> Result<(), Fail> {
    // 17 calls of `send` and 13 of `recv` in pieces of five bytes
    for n in 1u64..=31 {
        let mut link = FailingLink::new(replying(rt.alloc(), &REPLIES)?, n, 5);
        let mut host = host()?;
        let opened = host.open(&mut link, false);
        let closed = host.close(&mut link);
        let fault = match closed {
            Ok(()) => None,
            Err(fault) => Some(fault),
        };
        let is_broken = fault == Some(HostFault::SendFailed)
            || fault == Some(HostFault::RecvFailed);
        assert!(rt; is_broken == (n <= 30), "call {n}");
        let stays = match opened {
            Ok(found) => found == SIGNATURE,
            Err(first) => Some(first) == fault,
        };
        assert!(rt; stays, "call {n}");
        assert!(rt; FRAMES.starts_with(link.inner().sent()), "call {n}");
    }
    Ok(())
}

#[test]
fn eight_silences(rt: HostRuntime) -> Result<(), Fail> {
    let items = vec![in rt.alloc(); Item::Silence; 8]?;
    let mut link = TapeLink::new(rt.alloc(), items, 281);
    let mut host = host()?;
    assert!(rt; host.open(&mut link, false) == Err(HostFault::NoAnswer));
    assert!(rt; host.close(&mut link) == Err(HostFault::NoAnswer));
    let sent: &[u8] = &[
        0x1B, 0x01, 0x00, 0x01, 0x0E, 0x01, 0x14, 0x1B, 0x02, 0x00, 0x01, 0x0E, 0x01, 0x17, 0x1B,
        0x03, 0x00, 0x01, 0x0E, 0x01, 0x16, 0x1B, 0x04, 0x00, 0x01, 0x0E, 0x01, 0x11, 0x1B, 0x05,
        0x00, 0x03, 0x0E, 0x11, 0x01, 0x01, 0x02, 0x1B, 0x06, 0x00, 0x03, 0x0E, 0x11, 0x01, 0x01,
        0x01, 0x1B, 0x07, 0x00, 0x03, 0x0E, 0x11, 0x01, 0x01, 0x00, 0x1B, 0x08, 0x00, 0x03, 0x0E,
        0x11, 0x01, 0x01, 0x0F,
    ];
    assert_eq!(rt; link.sent(), sent);
    Ok(())
}

#[test]
fn babble_a_silence_a_reply_and_the_end(rt: HostRuntime) -> Result<(), Fail> {
    let mut items = vec![in rt.alloc(); Item::Byte(0x1B); 5000]?;
    items.push(Item::Silence)?;
    let reply: [u8; 17] = [
        0x1B, 0x03, 0x00, 0x0B, 0x0E, 0x01, 0x00, 0x08, 0x53, 0x54, 0x4B, 0x35, 0x30, 0x30, 0x5F,
        0x32, 0x00,
    ];
    for byte in &reply {
        items.push(Item::Byte(*byte))?;
    }
    items.push(Item::End)?;
    let mut link = TapeLink::new(rt.alloc(), items, 281);
    let mut host = host()?;
    assert!(rt; host.open(&mut link, false) == Err(HostFault::LinkEnded));
    let sent: &[u8] = &[
        0x1B, 0x01, 0x00, 0x01, 0x0E, 0x01, 0x14, 0x1B, 0x02, 0x00, 0x01, 0x0E, 0x01, 0x17, 0x1B,
        0x03, 0x00, 0x01, 0x0E, 0x01, 0x16, 0x1B, 0x04, 0x00, 0x0C, 0x0E, 0x10, 0xC8, 0x64, 0x19,
        0x20, 0x00, 0x53, 0x03, 0xAC, 0x53, 0x00, 0x00, 0x37,
    ];
    assert_eq!(rt; link.sent(), sent);
    // the end stays: each later call returns it and sends nothing
    assert!(rt; host.close(&mut link) == Err(HostFault::LinkEnded));
    assert!(rt; host.open(&mut link, true) == Err(HostFault::LinkEnded));
    assert_eq!(rt; link.sent(), sent);
    Ok(())
}

#[test]
fn enter_is_refused(rt: HostRuntime) -> Result<(), Fail> {
    // `B0 C1` reports a spoiled frame: ENTER is sent again, with the next number
    let mut replies = REPLIES[..17].to_vec(rt.alloc())?;
    replies.extend_from_slice(&[0x1B, 0x02, 0x00, 0x02, 0x0E, 0xB0, 0xC1, 0x64])?;
    let mut sent = FRAMES[..25].to_vec(rt.alloc())?;
    sent.extend_from_slice(&[
        0x1B, 0x03, 0x00, 0x0C, 0x0E, 0x10, 0xC8, 0x64, 0x19, 0x20, 0x00, 0x53, 0x03, 0xAC, 0x53,
        0x00, 0x00, 0x30,
    ])?;
    session(
        &rt,
        rt.alloc(),
        &replies,
        false,
        Err(HostFault::LinkEnded),
        &sent,
    )?;

    // at most four times, then LEAVE
    replies.extend_from_slice(&[
        0x1B, 0x03, 0x00, 0x02, 0x0E, 0xB0, 0xC1, 0x65, 0x1B, 0x04, 0x00, 0x02, 0x0E, 0xB0, 0xC1,
        0x62, 0x1B, 0x05, 0x00, 0x02, 0x0E, 0xB0, 0xC1, 0x63,
    ])?;
    sent.extend_from_slice(&[
        0x1B, 0x04, 0x00, 0x0C, 0x0E, 0x10, 0xC8, 0x64, 0x19, 0x20, 0x00, 0x53, 0x03, 0xAC, 0x53,
        0x00, 0x00, 0x37, 0x1B, 0x05, 0x00, 0x0C, 0x0E, 0x10, 0xC8, 0x64, 0x19, 0x20, 0x00, 0x53,
        0x03, 0xAC, 0x53, 0x00, 0x00, 0x36, 0x1B, 0x06, 0x00, 0x03, 0x0E, 0x11, 0x01, 0x01, 0x01,
    ])?;
    session(
        &rt,
        rt.alloc(),
        &replies,
        false,
        Err(HostFault::Refused(0x10, 0xC1)),
        &sent,
    )?;
    Ok(())
}

#[test]
fn enter_fails_at_once(rt: HostRuntime) -> Result<(), Fail> {
    let mut sent = FRAMES[..25].to_vec(rt.alloc())?;
    sent.extend_from_slice(&[0x1B, 0x03, 0x00, 0x03, 0x0E, 0x11, 0x01, 0x01, 0x04])?;
    // a status other than 00
    let mut refused = REPLIES[..17].to_vec(rt.alloc())?;
    refused.extend_from_slice(&[0x1B, 0x02, 0x00, 0x02, 0x0E, 0x10, 0xC0, 0xC5])?;
    session(
        &rt,
        rt.alloc(),
        &refused,
        false,
        Err(HostFault::Refused(0x10, 0xC0)),
        &sent,
    )?;
    // the reply to another command
    let mut other = REPLIES[..17].to_vec(rt.alloc())?;
    other.extend_from_slice(&[0x1B, 0x02, 0x00, 0x02, 0x0E, 0x11, 0x00, 0x04])?;
    session(
        &rt,
        rt.alloc(),
        &other,
        false,
        Err(HostFault::BadAnswer(0x10)),
        &sent,
    )?;
    Ok(())
}

#[test]
fn another_signature(rt: HostRuntime) -> Result<(), Fail> {
    let mut replies = REPLIES;
    replies[52] = 0x14;
    replies[54] = 0x1B;
    let found = [0x1E, 0x95, 0x14];
    session(
        &rt,
        rt.alloc(),
        &replies,
        false,
        Err(HostFault::WrongSignature(found)),
        &FRAMES,
    )?;
    session(&rt, rt.alloc(), &replies, true, Ok(found), &FRAMES)
}

#[test]
fn over_a_reader_and_a_writer(rt: HostRuntime) -> Result<(), Fail> {
    let mut written = Vec::new(rt.alloc());
    let mut host = host()?;
    let mut link = StreamLink::new(REPLIES.as_slice(), &mut written);
    assert!(rt; host.open(&mut link, false) == Ok(SIGNATURE));
    assert!(rt; host.close(&mut link) == Ok(()));
    assert!(rt; host.close(&mut link) == Err(HostFault::LinkEnded));
    assert_eq!(rt; written.len(), 79);
    assert!(rt; written.starts_with(&FRAMES));
    Ok(())
}

/// A device whose every second call is interrupted.
#[derive(Drop)]
struct Unsteady {
    calls: u8,
}

impl Read for Unsteady {
    fn read(&mut self, buf: &mut [u8]) -> io::Result<usize> {
        self.calls = self.calls.wrapping_add(1);
        match self.calls {
            2 => Err(ErrorKind::WouldBlock.into()),
            4 => Err(ErrorKind::TimedOut.into()),
            6 => Ok(buf.len().min(1)),
            8 => Ok(0),
            10 => Err(ErrorKind::ConnectionReset.into()),
            _ => Err(ErrorKind::Interrupted.into()),
        }
    }
}

impl Write for Unsteady {
    fn write(&mut self, buf: &[u8]) -> io::Result<usize> {
        self.calls = self.calls.wrapping_add(1);
        match self.calls {
            2 => Ok(buf.len().min(1)),
            6 => Ok(0),
            8 => Err(ErrorKind::BrokenPipe.into()),
            _ => Err(ErrorKind::Interrupted.into()),
        }
    }

    fn flush(&mut self) -> io::Result<()> {
        self.calls = self.calls.wrapping_add(1);
        match self.calls {
            4 => Ok(()),
            _ => Err(ErrorKind::Interrupted.into()),
        }
    }
}

#[test]
fn silences_ends_and_faults_of_devices(rt: HostRuntime) {
    let mut link = StreamLink::new(Unsteady { calls: 0 }, Unsteady { calls: 0 });
    let mut buffer = [0; 281];
    assert!(rt; link.recv(&mut buffer) == Ok(Heard::Silence));
    assert!(rt; link.recv(&mut buffer) == Ok(Heard::Silence));
    assert!(rt; link.recv(&mut buffer) == Ok(Heard::Bytes(1)));
    assert!(rt; link.recv(&mut buffer) == Ok(Heard::End));
    assert_eq!(rt; link.last_error(), None);
    assert!(rt; link.recv(&mut buffer) == Err(LinkFault::Failed));
    assert_eq!(rt; link.last_error(), Some(ErrorKind::ConnectionReset));
    assert!(rt; link.send(&[1, 2]) == Ok(1));
    assert_eq!(rt; link.last_error(), Some(ErrorKind::ConnectionReset));
    assert!(rt; link.send(&[1, 2]) == Err(LinkFault::Failed));
    assert_eq!(rt; link.last_error(), Some(ErrorKind::WriteZero));
    assert!(rt; link.send(&[1, 2]) == Err(LinkFault::Failed));
    assert_eq!(rt; link.last_error(), Some(ErrorKind::BrokenPipe));
    assert_eq!(rt; LinkFault::Failed.number(), 1);
    assert_eq!(rt; HostFault::RecvFailed.number(), 11);
}

#[test]
fn a_refusal_has_names(rt: HostRuntime) {
    let refused = HostFault::Refused(0x12, 0x81);
    assert_eq!(rt; refused.command_name(), Some("CMD_CHIP_ERASE_ISP"));
    assert_eq!(rt; refused.status_name(), Some("STATUS_RDY_BSY_TOUT"));
    assert_eq!(rt;
        HostFault::BadAnswer(0x1D).command_name(),
        Some("CMD_SPI_MULTI")
    );
    assert_eq!(rt; HostFault::Refused(0x04, 0x01).command_name(), None);
    assert_eq!(rt; HostFault::Refused(0x04, 0x01).status_name(), None);
}
