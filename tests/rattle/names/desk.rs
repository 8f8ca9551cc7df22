//= avr_desk Desk DeskFault MemDesk FailingDesk SystemDesk DeskFault::NotFound DeskFault::Failed Desk::open Desk::create
//= Desk::read Desk::write Desk::out Desk::err DeskFault::number MemDesk::new MemDesk::put MemDesk::file MemDesk::output
//= MemDesk::messages MemDesk::uses FailingDesk::new FailingDesk::inner
ghost use Rattle.avr_desk.specs.Memory.{Stock, memory_state};
ghost use Rattle.avr_desk.specs.Truth.{HoldsTrue};

use avr_plan::Settings;
use avr_desk::{Bytes, Desk, DeskFault, FailingDesk, MemDesk, SystemDesk};
use avr_tool::run;
use std::alloc::Global;
use std::test::Fail;
use stk_host::TapeLink;

/// A desk of one's own: six calls, without those that lock and replace files.
#[derive(Drop)]
pub(super) struct Own {
    pub(super) inner: MemDesk,
}

impl Own {
    pub(super) fn empty(alloc: Global) -> Own {
        Own {
            inner: MemDesk::empty(alloc),
        }
    }
}

impl Desk for Own {
    ghost view = { λ desk. memory_state desk.inner };

    ghost Start = { Stock };

    ghost started_as = { λ stock desk. HoldsTrue stock desk.inner };

    fn open(&mut self, name: &str) -> Result<(), DeskFault> {
        self.inner.open(name)
    }

    fn create(&mut self, name: &str) -> Result<(), DeskFault> {
        self.inner.create(name)
    }

    fn read(&mut self, buf: &mut [u8]) -> Result<usize, DeskFault> {
        self.inner.read(buf)
    }

    fn write(&mut self, bytes: &[u8]) -> Result<usize, DeskFault> {
        self.inner.write(bytes)
    }

    fn out(&mut self, bytes: &[u8]) -> Result<usize, DeskFault> {
        self.inner.out(bytes)
    }

    fn err(&mut self, bytes: &[u8]) -> Result<usize, DeskFault> {
        self.inner.err(bytes)
    }
}

#[test]
fn a_desk_of_ones_own_has_six_calls(rt: HostRuntime) -> Result<(), Fail> {
    let alloc = rt.alloc();
    let settings = Settings::for_link(alloc, "m328p")?;
    let mut desk = Own::empty(alloc);
    let mut link = TapeLink::new(alloc, Vec::new(alloc), 281);
    assert!(rt; run(alloc, &settings, &mut desk, &mut link) == 1);
    assert!(rt; desk.inner.messages() == b"avrstk: error: link ended\n".as_slice());
    Ok(())
}

#[test]
fn desks(rt: HostRuntime) -> Result<(), Fail> {
    let alloc = rt.alloc();
    let mut desk: MemDesk = MemDesk::new(alloc, Bytes::copied(alloc, b"in")?);
    desk.put("a", b"ab")?;
    assert!(rt; desk.open("b") == Err(DeskFault::NotFound));
    let opened: Result<(), DeskFault> = desk.open("a");
    assert!(rt; opened == Ok(()));
    let mut buffer = [0u8; 4];
    let count: Result<usize, DeskFault> = desk.read(&mut buffer);
    assert!(rt; count == Ok(2));
    let created: Result<(), DeskFault> = desk.create("c");
    assert!(rt; created == Ok(()));
    let written: Result<usize, DeskFault> = desk.write(b"xy");
    let out: Result<usize, DeskFault> = desk.out(b"o");
    let err: Result<usize, DeskFault> = desk.err(b"e");
    assert!(rt; written == Ok(2) && out == Ok(1) && err == Ok(1));
    let file: Option<&[u8]> = desk.file("c");
    assert!(rt; file.is_some() && desk.uses().len() == 2);
    let output: &[u8] = desk.output();
    let messages: &[u8] = desk.messages();
    assert!(rt; output.len() == 1 && messages.len() == 1);
    let mut failing = FailingDesk::new(desk, 1);
    assert!(rt; failing.out(b"o") == Err(DeskFault::Failed));
    let inner: &MemDesk = failing.inner();
    assert!(rt; inner.output().len() == 1);
    assert!(rt; DeskFault::NotFound.number() == 1 && DeskFault::Failed.number() == 2);
    let _real = SystemDesk::new(&rt, Vec::new(alloc), Vec::new(alloc));
    Ok(())
}
