//! Both ends of a TCP port of this machine, in one thread.
use avr_plan::{Settings, read_settings, read_words};
use avr_desk::MemDesk;
use avr_tool::{Port, Text, accept, listen, run_net, serve_net, serve_on};
use std::alloc::Global;
use std::io;
use std::io::{ErrorKind, Read, Write};
use std::net::{Net, OpenListener, Shutdown, SocketAddr, TcpListener, TcpStream};
use std::test::Fail;
use stk_host::{Heard, Link, StreamLink};
use crate::data::{REPLIES, FRAMES};

/// Returns the settings of a run without updates: it only reads the part's signature.
fn settings_for(alloc: Global, part: &str) -> Result<Settings, Fail> {
    let mut words: Vec<String> = Vec::new(alloc);
    for word in ["avrstk", "-P", "net:127.0.0.1:1", "-p", part] {
        words.push(String::from_str(alloc, word)?)?;
    }
    let matches = read_words(alloc, words.as_slice())?;
    Ok(read_settings(alloc, &matches)?)
}

/// Returns the settings of a service at this port.
fn settings_to_serve(alloc: Global, part: &str, port: &str) -> Result<Settings, Fail> {
    let mut settings = settings_for(alloc, part)?;
    let [port, chip] = [Text::new(alloc, port)?, Text::new(alloc, "chip.bin")?];
    settings.port = Port::Served { port, chip };
    Ok(settings)
}

/// A run that has ended.
#[derive(Drop)]
struct Over {
    desk: MemDesk,
    status: u8,
}

/// Runs over a port of this machine.
fn run_at<R: Net>(rt: &R, alloc: Global, part: &str, port: u16) -> Result<Over, Fail> {
    let mut settings = settings_for(alloc, part)?;
    let address = format!(in alloc; "127.0.0.1:{port}")?;
    settings.port = Port::Network(Text::new(alloc, address.as_str())?);
    let mut desk = MemDesk::empty(alloc);
    let status = run_net(rt, alloc, &settings, &mut desk);
    Ok(Over { desk, status })
}

/// Receives everything on a link up to its end.
fn received_to_the_end<R: Read + Drop, W: Write + Drop>(
    alloc: Global,
    link: &mut StreamLink<R, W>,
) -> Result<Vec<u8>, Fail> {
    let mut bytes = Vec::new(alloc);
    let mut buffer = [0; 64];
    for _ in 0..100 {
        match link.recv(&mut buffer)? {
            Heard::Bytes(count) => bytes.extend_from_slice(&buffer[..count])?,
            Heard::Silence => {}
            Heard::End => return Ok(bytes),
        }
    }
    Ok(bytes)
}

/// The port is opened after the plan, so a refused plan makes no connection.
#[test]
fn a_refused_plan_leaves_the_port_alone(rt: HostRuntime) -> Result<(), Fail> {
    let listener = listen(&rt, 0)?;
    listener.set_nonblocking(true)?;
    let over = run_at(&rt, rt.alloc(), "m329p", listener.local_addr()?.port())?;
    assert_eq!(rt; over.status, 1);
    assert!(rt; over.desk.messages() == b"avrstk: error: no part m329p\n".as_slice());
    match accept(listener) {
        Ok(_) => assert!(rt; false, "somebody called"),
        Err(error) => assert_eq!(rt; error.kind(), ErrorKind::WouldBlock),
    }
    Ok(())
}

#[test]
fn a_port_that_nobody_serves(rt: HostRuntime) -> Result<(), Fail> {
    let listener = listen(&rt, 0)?;
    let port = listener.local_addr()?.port();
    drop(listener);
    let over = run_at(&rt, rt.alloc(), "m328p", port)?;
    assert_eq!(rt; over.status, 1);
    let line = format!(in rt.alloc();
        "avrstk: error: port net:127.0.0.1:{port} cannot be opened\n"
    )?;
    assert!(rt; over.desk.messages() == line.as_bytes());
    Ok(())
}

/// SIGN_ON and LEAVE_PROGMODE_ISP, four times each, numbered from 1.
const WITHOUT_REPLY: [u8; 64] = [
    0x1B, 0x01, 0x00, 0x01, 0x0E, 0x01, 0x14, 0x1B, 0x02, 0x00, 0x01, 0x0E, 0x01, 0x17, 0x1B, 0x03,
    0x00, 0x01, 0x0E, 0x01, 0x16, 0x1B, 0x04, 0x00, 0x01, 0x0E, 0x01, 0x11, 0x1B, 0x05, 0x00, 0x03,
    0x0E, 0x11, 0x01, 0x01, 0x02, 0x1B, 0x06, 0x00, 0x03, 0x0E, 0x11, 0x01, 0x01, 0x01, 0x1B, 0x07,
    0x00, 0x03, 0x0E, 0x11, 0x01, 0x01, 0x00, 0x1B, 0x08, 0x00, 0x03, 0x0E, 0x11, 0x01, 0x01, 0x0F,
];

/// The connection is accepted only after the run, so each attempt ends with a timeout of one second.
#[test]
fn a_programmer_that_never_replies(rt: HostRuntime) -> Result<(), Fail> {
    let listener = listen(&rt, 0)?;
    let over = run_at(&rt, rt.alloc(), "m328p", listener.local_addr()?.port())?;
    assert_eq!(rt; over.status, 1);
    assert!(rt; over.desk.messages() == b"avrstk: error: no answer\n".as_slice());
    let received = received_to_the_end(rt.alloc(), &mut accept(listener)?)?;
    assert_eq!(rt; received.as_slice(), WITHOUT_REPLY.as_slice());
    Ok(())
}

/// A network whose one connection is already open.
#[derive(Drop)]
struct Connected {
    stream: TcpStream,
}

impl Net for Connected {
    type Stream = TcpStream;

    type Listener = TcpListener;

    fn bind(&self, _addr: SocketAddr) -> io::Result<TcpListener> {
        Err(io::Error::from(ErrorKind::Unsupported))
    }

    fn connect(&self, _addr: SocketAddr) -> io::Result<TcpStream> {
        self.stream.try_clone()
    }
}

/// All replies are sent before the first frame arrives.
#[test]
fn a_programmer_that_replies(rt: HostRuntime) -> Result<(), Fail> {
    let listener = listen(&rt, 0)?;
    let stream = TcpStream::connect(&rt, listener.local_addr()?)?;
    let net = Connected { stream };
    let mut programmer = accept(listener)?;
    assert_eq!(rt; programmer.send(REPLIES.as_slice())?, REPLIES.len());
    let over = run_at(&net, rt.alloc(), "m328p", 1)?;
    drop(net);
    assert_eq!(rt; over.status, 0);
    let lines = b"avrstk: device signature = 1E 95 0F\navrstk: done\n";
    assert!(rt; over.desk.messages() == lines.as_slice());
    let received = received_to_the_end(rt.alloc(), &mut programmer)?;
    assert_eq!(rt; received.as_slice(), FRAMES.as_slice());
    Ok(())
}

/// A frame with a command that no programmer knows.
const FRAME: [u8; 7] = [0x1B, 0x09, 0x00, 0x01, 0x0E, 0x05, 0x18];

/// The reply of any programmer to it.
const REPLY: [u8; 8] = [0x1B, 0x09, 0x00, 0x02, 0x0E, 0x05, 0xC9, 0xD2];

/// The caller has sent everything and shut down its writing side before it is accepted.
#[test]
fn a_caller_gets_its_reply_and_the_chip_is_saved(rt: HostRuntime) -> Result<(), Fail> {
    let alloc = rt.alloc();
    let listener = listen(&rt, 0)?;
    let mut caller = TcpStream::connect(&rt, listener.local_addr()?)?;
    caller.write_all(FRAME.as_slice())?;
    caller.shutdown(Shutdown::Write)?;
    let settings = settings_to_serve(alloc, "m328p", "5000")?;
    let mut desk = MemDesk::empty(alloc);
    let status = serve_on(&rt, alloc, &settings, listener, &mut desk);
    assert_eq!(rt; status, 0);
    assert!(rt; desk.messages().is_empty());
    assert_eq!(rt; desk.file("chip.bin").map(|file| file.len()), Some(33_796));
    let mut received = Vec::new(alloc);
    caller.read_to_end(&mut received)?;
    assert_eq!(rt; received.as_slice(), REPLY.as_slice());
    Ok(())
}

/// The port is open to this machine only. No contract covers this.
#[test]
fn a_port_is_open_to_this_machine_alone(rt: HostRuntime) -> Result<(), Fail> {
    let listener = listen(&rt, 0)?;
    assert!(rt; listener.local_addr()?.ip().is_loopback());
    Ok(())
}

/// Serves a part at the listener's port, which is taken. `chip` is the chip file, if there is one.
fn serve_at_taken(
    rt: &HostRuntime,
    listener: &TcpListener,
    part: &str,
    chip: Option<&[u8]>,
) -> Result<Over, Fail> {
    let alloc = rt.alloc();
    let number = listener.local_addr()?.port();
    let port = format!(in alloc; "{number}")?;
    let settings = settings_to_serve(alloc, part, port.as_str())?;
    let mut desk = MemDesk::empty(alloc);
    if let Some(bytes) = chip {
        desk.put("chip.bin", bytes)?;
    }
    let status = serve_net(rt, alloc, &settings, &mut desk);
    Ok(Over { desk, status })
}

#[test]
fn a_port_that_is_taken(rt: HostRuntime) -> Result<(), Fail> {
    let listener = listen(&rt, 0)?;
    let over = serve_at_taken(&rt, &listener, "m328p", None)?;
    assert_eq!(rt; over.status, 1);
    let number = listener.local_addr()?.port();
    let line = format!(in rt.alloc(); "avrstk: error: port {number} cannot be opened\n")?;
    assert!(rt; over.desk.messages() == line.as_bytes());
    assert!(rt; over.desk.file("chip.bin").is_none());
    Ok(())
}

/// The port is opened after the part and the chip are found good. No contract covers this.
#[test]
fn a_part_and_a_chip_are_refused_before_the_port(rt: HostRuntime) -> Result<(), Fail> {
    let listener = listen(&rt, 0)?;
    let no_part = serve_at_taken(&rt, &listener, "m329p", None)?;
    assert!(rt; no_part.desk.messages() == b"avrstk: error: no part m329p\n".as_slice());
    let no_chip = serve_at_taken(&rt, &listener, "m328p", Some(b"abc"))?;
    let line = b"avrstk: error: chip.bin: 3 bytes, 33796 expected\n";
    assert!(rt; no_chip.desk.messages() == line.as_slice());
    Ok(())
}
