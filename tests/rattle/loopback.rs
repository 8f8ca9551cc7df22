//! Whole runs over one connection in one thread: the tool at one end, the emulator at the other.
ghost use Rattle.stk_host.specs.Links.{stream_state};

use avr_plan::{Settings, read_settings, read_words};
use avr_desk::MemDesk;
use avr_part::{Chip, Mem, Parts};
use avr_tool::{accept, serve_link, listen, run};
use std::alloc::Global;
use std::net::{OpenListener, TcpStream};
use std::test::Fail;
use std::time::Duration;
use stk_emu::Emulator;
use stk_host::{Heard, Link, LinkFault, StreamLink};

/// Both ends of a connection. What is sent at the near end is answered at the far one at once, before the next receive.
#[derive(Drop)]
struct Loopback {
    near: StreamLink<TcpStream, TcpStream>,
    far: StreamLink<TcpStream, TcpStream>,
    emulator: Emulator,
}

impl Link for Loopback {
    ghost view = { λ link. stream_state link.near };

    ghost Start = { Unit {0} };

    ghost started_as = { λ start link. Unit {0} };

    fn send(&mut self, bytes: &[u8]) -> Result<usize, LinkFault> {
        let sent = self.near.send(bytes);
        let _ = serve_link(&mut self.emulator, &mut self.far, 1);
        sent
    }

    fn recv(&mut self, buffer: &mut [u8]) -> Result<Heard, LinkFault> {
        self.near.recv(buffer)
    }
}

/// Returns a connection to a new ATmega328P.
fn connected(rt: &HostRuntime) -> Result<Loopback, Fail> {
    let listener = listen(rt, 0)?;
    let stream = TcpStream::connect(rt, listener.local_addr()?)?;
    stream.set_read_timeout(Some(Duration::from_secs(1)))?;
    let writer = stream.try_clone()?;
    let chip = Chip::fresh(rt.alloc(), Parts::none().find("m328p")?)?;
    Ok(Loopback {
        near: StreamLink::new(stream, writer),
        far: accept(listener)?,
        emulator: Emulator::new(chip),
    })
}

fn settings_for(alloc: Global, updates: &[&str]) -> Result<Settings, Fail> {
    let mut words: Vec<String> = Vec::new(alloc);
    for word in ["avrstk", "-P", "net:127.0.0.1:1", "-p", "m328p"] {
        words.push(String::from_str(alloc, word)?)?;
    }
    for update in updates {
        words.push(String::from_str(alloc, "-U")?)?;
        words.push(String::from_str(alloc, *update)?)?;
    }
    let matches = read_words(alloc, words.as_slice())?;
    Ok(read_settings(alloc, &matches)?)
}

/// A run that has ended.
#[derive(Drop)]
struct Over {
    desk: MemDesk,
    link: Loopback,
    status: u8,
}

fn run_over(rt: &HostRuntime, updates: &[&str]) -> Result<Over, Fail> {
    let settings = settings_for(rt.alloc(), updates)?;
    let mut desk = MemDesk::empty(rt.alloc());
    desk.put("a.bin", b"")?;
    let mut link = connected(rt)?;
    let status = run(rt.alloc(), &settings, &mut desk, &mut link);
    Ok(Over { desk, link, status })
}

#[test]
fn a_fuse_is_written_over_a_connection(rt: HostRuntime) -> Result<(), Fail> {
    let over = run_over(&rt, &["lfuse:w:0xE2:m", "lfuse:r:-:h"])?;
    assert_eq!(rt; over.status, 0);
    assert!(rt; over.desk.output() == b"0xe2\n".as_slice());
    let lines = b"avrstk: device signature = 1E 95 0F
avrstk: lfuse: 1 bytes written
avrstk: lfuse: 1 bytes verified
avrstk: lfuse: 1 bytes read
avrstk: done
";
    assert!(rt; over.desk.messages() == lines.as_slice());
    assert_eq!(rt; over.link.emulator.chip().byte(Mem::Lfuse, 0), Some(0xE2));
    Ok(())
}

#[test]
fn an_empty_flash_is_written_over_a_connection(rt: HostRuntime) -> Result<(), Fail> {
    let over = run_over(&rt, &["flash:w:a.bin"])?;
    assert_eq!(rt; over.status, 0);
    let lines = b"avrstk: device signature = 1E 95 0F
avrstk: chip erased
avrstk: flash: 0 bytes written
avrstk: flash: 0 bytes verified
avrstk: done
";
    assert!(rt; over.desk.messages() == lines.as_slice());
    Ok(())
}
