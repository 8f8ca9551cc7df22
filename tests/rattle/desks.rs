//! Calls that succeed, and the desk of a program over real files.
use avr_desk::{
    Bytes, ChipDesk, Desk, DeskCall, DeskFault, FailingDesk, FileFault, MemDesk, Stream, SystemDesk,
    WatchDesk, WatchedDesk, read_file, write_all,
};
use std::alloc::{AllocError, Global};
use std::io::{self, ErrorKind, Write};
use std::test::Fail;
use std::{env, fs, process};

/// Returns whether the whole file fits into the limit and has these bytes.
fn holds<D: Desk>(alloc: Global, desk: &mut D, name: &str, limit: usize, want: &[u8]) -> bool {
    match read_file(alloc, desk, name, limit) {
        Ok(got) => got.ended && got.bytes.as_slice() == want,
        Err(_) => false,
    }
}

/// Returns whether the next read, of at most two bytes, gives `want`.
fn gives<D: Desk>(desk: &mut D, want: &[u8]) -> bool {
    let mut buf = [0u8; 2];
    match desk.read(&mut buf) {
        Ok(count) => &buf[..count] == want,
        Err(_) => false,
    }
}

/// Writes these bytes to a stream.
fn put<D: Desk>(desk: &mut D, stream: Stream, bytes: &[u8]) -> Result<(), DeskFault> {
    write_all(desk, stream, bytes)
}

/// Returns a desk with this file, and with `in` as standard input.
fn desk_with(alloc: Global, name: &str, bytes: &[u8]) -> Result<MemDesk, AllocError> {
    let mut desk = MemDesk::new(alloc, Bytes::copied(alloc, b"in")?);
    desk.put(name, bytes)?;
    Ok(desk)
}

#[test]
fn a_desk_gives_its_files(rt: HostRuntime) -> Result<(), Fail> {
    let alloc = rt.alloc();
    let mut desk = desk_with(alloc, "a.hex", b"one two three")?;
    assert!(rt; holds(alloc, &mut desk, "a.hex", 13, b"one two three"));
    assert!(rt; !holds(alloc, &mut desk, "a.hex", 12, b"one two three"));
    assert!(rt; holds(alloc, &mut desk, "-", 4096, b"in"));
    let absent = read_file(alloc, &mut desk, "b.hex", 1);
    assert!(rt; absent.err() == Some(FileFault::Absent));
    assert!(rt; desk.uses().len() == 4);
    Ok(())
}

#[test]
fn a_created_file_is_new(rt: HostRuntime) -> Result<(), Fail> {
    let mut desk = desk_with(rt.alloc(), "a.hex", b"one two three")?;
    assert!(rt; desk.create("a.hex") == Ok(()));
    assert!(rt; put(&mut desk, Stream::File, b"new") == Ok(()));
    assert!(rt; desk.file("a.hex") == Some(b"new".as_slice()));
    assert!(rt; desk.open("a.hex") == Ok(()));
    assert!(rt; gives(&mut desk, b"ne"));
    assert!(rt; gives(&mut desk, b"w"));
    assert!(rt; gives(&mut desk, b""));
    Ok(())
}

#[test]
fn a_file_is_held_until_it_is_replaced(rt: HostRuntime) -> Result<(), Fail> {
    let mut desk = desk_with(rt.alloc(), "a.hex", b"one two three")?;
    assert!(rt; desk.hold("a.hex") == Ok(true));
    assert!(rt; desk.hold("a.hex") == Ok(false));
    assert!(rt; desk.replace("a.hex", b"new") == Ok(()));
    assert!(rt; desk.file("a.hex") == Some(b"new".as_slice()));
    assert!(rt; desk.hold("a.hex") == Ok(true));
    desk.release();
    assert!(rt; desk.hold("a.hex") == Ok(true));
    Ok(())
}

#[test]
fn output_and_messages(rt: HostRuntime) {
    let mut desk = MemDesk::empty(rt.alloc());
    assert!(rt; put(&mut desk, Stream::Output, b"0xe2\n") == Ok(()));
    assert!(rt; put(&mut desk, Stream::Messages, b"avrstk: ") == Ok(()));
    assert!(rt; put(&mut desk, Stream::Messages, b"done\n") == Ok(()));
    assert!(rt; desk.output() == b"0xe2\n".as_slice());
    assert!(rt; desk.messages() == b"avrstk: done\n".as_slice());
}

#[test]
fn nothing_is_open(rt: HostRuntime) {
    let mut desk = MemDesk::empty(rt.alloc());
    assert!(rt; desk.open("none") == Err(DeskFault::NotFound));
    assert!(rt; !gives(&mut desk, b""));
    assert!(rt; desk.write(b"x") == Err(DeskFault::Failed));
}

#[test]
fn the_third_call_fails(rt: HostRuntime) {
    let mut desk = FailingDesk::new(MemDesk::empty(rt.alloc()), 3);
    assert!(rt; desk.create("x") == Ok(()));
    assert!(rt; put(&mut desk, Stream::Output, b"first") == Ok(()));
    assert!(rt; put(&mut desk, Stream::Output, b"second") == Err(DeskFault::Failed));
    assert!(rt; put(&mut desk, Stream::File, b"third") == Ok(()));
    assert!(rt; desk.inner().output() == b"first".as_slice());
    assert!(rt; desk.inner().file("x") == Some(b"third".as_slice()));
}

/// A watcher that counts missing files, and the bytes written.
#[derive(Drop)]
struct Tally {
    absent: u32,
    written: usize,
}

impl WatchDesk for Tally {
    ghost after = { λ call old new. Unit {0} };

    fn on_call(&mut self, call: &DeskCall<'_>) {
        match call {
            DeskCall::Opened(_, Err(DeskFault::NotFound)) => {
                self.absent = self.absent.saturating_add(1);
            }
            DeskCall::Wrote(_, _, Ok(count)) => self.written = self.written.saturating_add(*count),
            _ => {}
        }
    }
}

#[test]
fn a_watcher_receives_each_call(rt: HostRuntime) {
    let watcher = Tally {
        absent: 0,
        written: 0,
    };
    let mut desk = WatchedDesk {
        desk: MemDesk::empty(rt.alloc()),
        watcher,
    };
    assert!(rt; desk.open("none") == Err(DeskFault::NotFound));
    assert!(rt; put(&mut desk, Stream::Output, b"0xe2\n") == Ok(()));
    assert!(rt; put(&mut desk, Stream::Messages, b"done\n") == Ok(()));
    assert!(rt; desk.watcher.absent == 1 && desk.watcher.written == 10);
    assert!(rt; desk.desk.output() == b"0xe2\n".as_slice());
}

/// Returns a name in the folder of temporary files that only this process uses, for a file of this purpose.
fn temporary(rt: &HostRuntime, purpose: &str) -> Result<String, Fail> {
    let folder = env::temp_dir(rt)?;
    let id = process::id(rt.process());
    Ok(format!(in rt.alloc(); "{}/avr_desk_{purpose}_{id}.bin", folder.display())?)
}

#[test]
fn files_of_the_system(rt: HostRuntime) -> Result<(), Fail> {
    let alloc = rt.alloc();
    let name = temporary(&rt, "made")?;
    let mut desk = SystemDesk::new(&rt, rt.stdout(), rt.stderr());
    assert!(rt; desk.open(name.as_str()) == Err(DeskFault::NotFound));
    assert_eq!(rt; desk.last_error(), None);
    assert!(rt; !gives(&mut desk, b""));
    assert!(rt; desk.create(name.as_str()) == Ok(()));
    assert!(rt; put(&mut desk, Stream::File, b"abc") == Ok(()));
    assert!(rt; holds(alloc, &mut desk, name.as_str(), 3, b"abc"));
    fs::remove_file(&rt, name.as_str())?;
    assert!(rt; !holds(alloc, &mut desk, ".", 3, b""));
    assert_eq!(rt; desk.last_error(), Some(ErrorKind::IsADirectory));
    assert!(rt; desk.create("/no/such/folder/x") == Err(DeskFault::Failed));
    assert_eq!(rt; desk.last_error(), Some(ErrorKind::NotFound));
    assert!(rt; put(&mut desk, Stream::Messages, b"a message\n") == Ok(()));
    Ok(())
}

#[test]
fn a_file_of_the_system_is_replaced(rt: HostRuntime) -> Result<(), Fail> {
    let alloc = rt.alloc();
    let name = temporary(&rt, "held")?;
    let new_name = format!(in alloc; "{name}.avrstk-new")?;
    let mut desk = SystemDesk::new(&rt, rt.stdout(), rt.stderr());
    let mut other = SystemDesk::new(&rt, rt.stdout(), rt.stderr());
    assert!(rt; desk.hold(name.as_str()) == Ok(true));
    assert!(rt; other.hold(name.as_str()) == Ok(false));
    assert!(rt; other.replace(name.as_str(), b"other") == Err(DeskFault::Failed));
    assert!(rt; desk.replace(name.as_str(), b"first") == Ok(()));
    assert!(rt; other.hold(name.as_str()) == Ok(true));
    other.release();
    assert!(rt; desk.replace(name.as_str(), b"second") == Ok(()));
    assert!(rt; holds(alloc, &mut desk, name.as_str(), 6, b"second"));
    assert!(rt; !fs::exists(&rt, new_name.as_str())?);
    fs::remove_file(&rt, name.as_str())?;
    assert!(rt; desk.hold("/no/such/folder/x") == Err(DeskFault::Failed));
    Ok(())
}

#[test]
fn another_file_than_the_held_one_is_replaced(rt: HostRuntime) -> Result<(), Fail> {
    let alloc = rt.alloc();
    let name = temporary(&rt, "one")?;
    let other = temporary(&rt, "other")?;
    let mut desk = SystemDesk::new(&rt, rt.stdout(), rt.stderr());
    assert!(rt; desk.replace(name.as_str(), b"old") == Ok(()));
    assert!(rt; desk.hold(name.as_str()) == Ok(true));
    assert!(rt; desk.replace(other.as_str(), b"new") == Ok(()));
    assert!(rt; holds(alloc, &mut desk, name.as_str(), 3, b"old"));
    assert!(rt; holds(alloc, &mut desk, other.as_str(), 3, b"new"));
    fs::remove_file(&rt, name.as_str())?;
    fs::remove_file(&rt, other.as_str())?;
    Ok(())
}

/// Prints to both streams, and the rest of the output to a created `-`.
fn print<D: Desk>(desk: &mut D) -> Result<(), DeskFault> {
    put(desk, Stream::Output, b"out")?;
    put(desk, Stream::Messages, b"a message\n")?;
    desk.create("-")?;
    put(desk, Stream::File, b"put")
}

/// Prints at a desk over these two writers.
fn print_both<'a>(
    rt: &'a HostRuntime,
    output: &'a mut Vec<u8>,
    messages: &'a mut Vec<u8>,
) -> Result<(), DeskFault> {
    let mut desk = SystemDesk::new(rt, output, messages);
    print(&mut desk)
}

#[test]
fn each_stream_has_its_writer(rt: HostRuntime) {
    let mut output = Vec::new(rt.alloc());
    let mut messages = Vec::new(rt.alloc());
    assert!(rt; print_both(&rt, &mut output, &mut messages) == Ok(()));
    assert!(rt; output.as_slice() == b"output".as_slice());
    assert!(rt; messages.as_slice() == b"a message\n".as_slice());
}

#[test]
fn a_created_dash_is_standard_output(rt: HostRuntime) {
    let mut desk = MemDesk::empty(rt.alloc());
    assert!(rt; print(&mut desk) == Ok(()));
    assert!(rt; desk.output() == b"out".as_slice());
    assert!(rt; desk.file("-") == Some(b"put".as_slice()));
    assert!(rt; desk.messages() == b"a message\n".as_slice());
}

/// A writer that takes one byte at a time. Its first write and first flush are interrupted, and its third flush fails.
#[derive(Drop)]
struct Stubborn {
    calls: u8,
    flushes: u8,
}

impl Write for Stubborn {
    fn write(&mut self, bytes: &[u8]) -> io::Result<usize> {
        self.calls = self.calls.saturating_add(1);
        if self.calls == 1 {
            return Err(io::Error::from(ErrorKind::Interrupted));
        }
        Ok(bytes.len().min(1))
    }

    fn flush(&mut self) -> io::Result<()> {
        self.flushes = self.flushes.saturating_add(1);
        match self.flushes {
            1 => Err(io::Error::from(ErrorKind::Interrupted)),
            3 => Err(io::Error::from(ErrorKind::WriteZero)),
            _ => Ok(()),
        }
    }
}

const STUBBORN: Stubborn = Stubborn {
    calls: 0,
    flushes: 0,
};

/// Returns whether the second of these writes fails, because its flush does, and nothing else.
fn is_flushed<W: Write + Drop>(rt: &HostRuntime, output: W) -> bool {
    let mut desk = SystemDesk::new(rt, output, rt.stderr());
    put(&mut desk, Stream::Output, b"a") == Ok(())
        && put(&mut desk, Stream::Output, b"b") == Err(DeskFault::Failed)
        && desk.create("-") == Ok(())
        && put(&mut desk, Stream::File, b"cd") == Ok(())
}

#[test]
fn a_writer_is_flushed(rt: HostRuntime) {
    assert!(rt; is_flushed(&rt, STUBBORN));
}
