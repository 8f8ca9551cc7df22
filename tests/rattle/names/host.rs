//= stk_host Link Heard LinkFault TapeLink Item StreamLink Host HostFault FailingLink Heard::Bytes Heard::Silence
//= Heard::End LinkFault::Failed Item::Byte Item::Silence Item::End HostFault::NoAnswer HostFault::LinkEnded
//= HostFault::SendFailed HostFault::Babble HostFault::BadAnswer HostFault::WrongSignature HostFault::ReadOnly
//= HostFault::Memory HostFault::RecvFailed Link::send Link::recv LinkFault::number TapeLink::new TapeLink::sent
//= StreamLink::new Host::open Host::erase Host::write Host::verify Host::close HostFault::number FailingLink::new
//= FailingLink::inner Host::new HostFault::Refused HostFault::Differs
use avr_image::Image;
use avr_part::{Mem, Parts};
use std::test::Fail;
use stk_host::{
    FailingLink, Heard, Host, HostFault, Item, Link, LinkFault, StreamLink, TapeLink,
};

#[test]
fn links(rt: HostRuntime) -> Result<(), Fail> {
    let alloc = rt.alloc();
    let mut items: Vec<Item> = Vec::new(alloc);
    items.push(Item::Byte(1))?;
    items.push(Item::Silence)?;
    items.push(Item::End)?;
    let mut link: TapeLink = TapeLink::new(alloc, items, 5);
    let sent: Result<usize, LinkFault> = link.send(&[1, 2]);
    assert!(rt; sent == Ok(2));
    let mut buffer = [0u8; 4];
    let heard: Result<Heard, LinkFault> = link.recv(&mut buffer);
    assert!(rt; heard == Ok(Heard::Bytes(1)));
    assert!(rt; link.recv(&mut buffer) == Ok(Heard::Silence));
    assert!(rt; link.recv(&mut buffer) == Ok(Heard::End));
    let sent: &[u8] = link.sent();
    assert!(rt; sent.len() == 2);
    let mut failing = FailingLink::new(TapeLink::new(alloc, Vec::new(alloc), 281), 1, 281);
    assert!(rt; failing.send(&[1]) == Err(LinkFault::Failed));
    let inner: &TapeLink = failing.inner();
    assert!(rt; inner.sent().is_empty() && LinkFault::Failed.number() == 1);
    Ok(())
}

#[test]
fn hosts(rt: HostRuntime) -> Result<(), Fail> {
    let alloc = rt.alloc();
    let mut streams = StreamLink::new(b"".as_slice(), Vec::new(alloc));
    let part = Parts::none().find("m328p")?;
    let mut host: Host = Host::new(part);
    let opened: Result<[u8; 3], HostFault> = host.open(&mut streams, false);
    assert!(rt; opened == Err(HostFault::LinkEnded));
    let erased: Result<(), HostFault> = host.erase(&mut streams);
    let mut image = Image::new(alloc, 1)?;
    image.put(0, 0xE2)?;
    let written: Result<(), HostFault> = host.write(&mut streams, Mem::Lfuse, &image);
    let mut bytes: Vec<u8> = Vec::new(alloc);
    let read: Result<(), HostFault> = host.read(&mut streams, Mem::Lfuse, &mut bytes);
    let verified: Result<(), HostFault> = host.verify(alloc, &mut streams, Mem::Lfuse, &image);
    let closed: Result<(), HostFault> = host.close(&mut streams);
    for ended in [erased, written, read, verified, closed] {
        assert!(rt; ended == Err(HostFault::LinkEnded));
    }
    Ok(())
}

#[test]
fn numbers(rt: HostRuntime) {
    let faults: [(HostFault, u8); 11] = [
        (HostFault::NoAnswer, 1),
        (HostFault::LinkEnded, 2),
        (HostFault::SendFailed, 3),
        (HostFault::Babble, 4),
        (HostFault::Refused(0x10, 0xC1), 5),
        (HostFault::BadAnswer(0x10), 6),
        (HostFault::WrongSignature([0x1E, 0x95, 0x14]), 7),
        (HostFault::Differs(Mem::Lfuse, 0, 0xE2, 0x62), 8),
        (HostFault::ReadOnly(Mem::Signature), 9),
        (HostFault::Memory, 10),
        (HostFault::RecvFailed, 11),
    ];
    for (fault, number) in faults {
        assert!(rt; fault.number() == number);
    }
}
