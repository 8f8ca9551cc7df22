//! Every message line of a plan, brought about once, and what plans hold. Lines about files and values are compared
//! with the texts of their faults.
use avr_plan::{
    BadFile, Format, Op, PartsFault, PlanFault, Port, ReadFault, Settings, Switches, Task,
    TaskFault, Text, Update, Updates, plan,
};
use avr_desk::{FailingDesk, FileFault, MemDesk};
use avr_image::ImageFault;
use avr_part::{Field, Mem, PartFault};
use avr_records::RecordFault;
use std::alloc::{AllocError, Global};
use std::fmt;
use std::test::Fail;

#[derive(Clone, Copy)]
/// The settings of a case: a part, a part file (none if the name is empty), and one update.
struct Asked<'a> {
    part: &'a str,
    parts: &'a str,
    memory: Mem,
    op: Op,
    format: Format,
    file: &'a str,
    quiet: u8,
}

/// Asks to write this file, whose format is detected, to the flash of m328p.
fn flash_of<'a>(file: &'a str) -> Asked<'a> {
    Asked {
        part: "m328p",
        parts: "",
        memory: Mem::Flash,
        op: Op::Write,
        format: Format::Auto,
        file,
        quiet: 0,
    }
}

/// Asks to read the flash of this part.
fn part_of<'a>(parts: &'a str, part: &'a str) -> Asked<'a> {
    Asked {
        part,
        parts,
        memory: Mem::Flash,
        op: Op::Read,
        format: Format::Raw,
        file: "out.bin",
        quiet: 0,
    }
}

fn settings(alloc: Global, asked: &Asked<'_>) -> Result<Settings, AllocError> {
    let mut updates = Updates::new(alloc);
    updates.push(Update {
        memory: asked.memory,
        op: asked.op,
        format: asked.format,
        file: Text::new(alloc, asked.file)?,
    })?;
    let parts = if asked.parts.is_empty() {
        None
    } else {
        Some(Text::new(alloc, asked.parts)?)
    };
    Ok(Settings {
        part: Text::new(alloc, asked.part)?,
        port: Port::Stdio,
        parts,
        updates,
        switches: Switches {
            erase: false,
            keep_flash: false,
            no_verify: false,
            dry: false,
            force: false,
            all: false,
            quiet: asked.quiet,
        },
    })
}

/// Returns whether the plan is refused with this line at a desk with this file.
fn refuses(
    alloc: Global,
    name: &str,
    bytes: &[u8],
    asked: &Asked<'_>,
    line: &str,
) -> Result<bool, AllocError> {
    let mut desk = MemDesk::empty(alloc);
    desk.put(name, bytes)?;
    let refused = plan(alloc, &settings(alloc, asked)?, &mut desk).is_err();
    Ok(refused && desk.messages() == line.as_bytes())
}

/// Returns whether there is a plan with one image of `held` bytes, and this line is printed.
fn plans(
    alloc: Global,
    name: &str,
    bytes: &[u8],
    asked: &Asked<'_>,
    held: u32,
    line: &str,
) -> Result<bool, AllocError> {
    let mut desk = MemDesk::empty(alloc);
    desk.put(name, bytes)?;
    let Ok(made) = plan(alloc, &settings(alloc, asked)?, &mut desk) else {
        return Ok(false);
    };
    let [Task::Write(_, image)] = made.tasks() else {
        return Ok(false);
    };
    Ok(image.len() == held && desk.messages() == line.as_bytes())
}

/// Returns whether `line` is the error line that names this file and has the text of this fault.
fn shows<F: fmt::Display>(
    alloc: Global,
    file: &str,
    fault: &F,
    line: &str,
) -> Result<bool, AllocError> {
    Ok(format!(in alloc; "avrstk: error: {file}: {fault}\n")?.as_str() == line)
}

/// Returns whether each of these texts, as a.hex, is refused with its line, and the line has the text of its fault.
fn refuses_all(alloc: Global, rows: &[(&str, RecordFault, &str)]) -> Result<bool, AllocError> {
    for (text, fault, line) in rows {
        if !refuses(alloc, "a.hex", text.as_bytes(), &flash_of("a.hex"), line)?
            || !shows(alloc, "a.hex", fault, line)?
        {
            return Ok(false);
        }
    }
    Ok(true)
}

#[test]
fn lines_of_record_files(rt: HostRuntime) -> Result<(), Fail> {
    let rows = [
        (
            ":0400000001020304F3\n",
            RecordFault::BadSum(1),
            "avrstk: error: a.hex: line 1: bad checksum\n",
        ),
        (
            ":020000040001F9\n:0100000055AA\n",
            RecordFault::OutOfRange(2, 0x0001_0000),
            "avrstk: error: a.hex: line 2: address 00010000 out of range\n",
        ),
        (
            ":00000000000\n",
            RecordFault::BadLength(1),
            "avrstk: error: a.hex: line 1: bad length\n",
        ),
        (
            ":0000000000G0\n",
            RecordFault::BadDigit(1),
            "avrstk: error: a.hex: line 1: bad digit\n",
        ),
        (
            ":00000006FA\n",
            RecordFault::BadType(1),
            "avrstk: error: a.hex: line 1: bad record type\n",
        ),
        (
            ":0000000000\n0000000000\n",
            RecordFault::BadMark(2),
            "avrstk: error: a.hex: line 2: no record mark\n",
        ),
        (
            "S107000001020304EE\nS5030002FA\n",
            RecordFault::BadCount(2),
            "avrstk: error: a.hex: line 2: bad record count\n",
        ),
    ];
    assert!(rt; refuses_all(rt.alloc(), &rows)?);
    Ok(())
}

/// Returns a text of `n` bytes: `prefix`, then `block` over and over.
fn text_of(alloc: Global, prefix: &[u8], block: &[u8], n: usize) -> Result<Vec<u8>, AllocError> {
    let mut text = Vec::new(alloc);
    text.extend_from_slice(prefix)?;
    for _ in 0..n {
        if text.len() >= n {
            break;
        }
        text.extend_from_slice(block)?;
    }
    text.truncate(n);
    Ok(text)
}

/// A line of blanks, which counts as empty.
const EMPTY: &[u8] = b"                                                               \n";

/// Returns whether a file of `prefix`, then `block` over and over, is refused with this line.
fn refuses_text(
    alloc: Global,
    prefix: &[u8],
    block: &[u8],
    n: usize,
    line: &str,
) -> Result<bool, AllocError> {
    let text = text_of(alloc, prefix, block, n)?;
    refuses(alloc, "a.hex", text.as_slice(), &flash_of("a.hex"), line)
}

#[test]
fn a_line_too_long(rt: HostRuntime) -> Result<(), Fail> {
    let line = "avrstk: error: a.hex: line 1: line too long\n";
    assert!(rt; refuses_text(rt.alloc(), b":", b"0", 601, line)?);
    assert!(rt; shows(rt.alloc(), "a.hex", &RecordFault::LineTooLong(1), line)?);
    Ok(())
}

/// A record with a bad checksum; `GOOD` is the same with a good one.
const BAD: &[u8] = b":0400000001020304F3\n";

const GOOD: &[u8] = b":0400000001020304F2\n";

#[test]
fn files_past_the_limit(rt: HostRuntime) -> Result<(), Fail> {
    let alloc = rt.alloc();
    let line = "avrstk: error: a.hex: line 1: bad checksum\n";
    assert!(rt; refuses_text(alloc, BAD, EMPTY, 4_194_305, line)?);
    let line = "avrstk: error: a.hex: longer than 4194304 bytes\n";
    assert!(rt; refuses_text(alloc, GOOD, EMPTY, 4_194_305, line)?);
    assert!(rt; shows(alloc, "a.hex", &BadFile::TooLong, line)?);
    Ok(())
}

/// The reason alone: a message also names the file, the memory or the part.
#[test]
fn faults_have_texts(rt: HostRuntime) -> Result<(), Fail> {
    let file = PartsFault::File(FileFault::Absent);
    let values = TaskFault::Values(ImageFault::TooLarge(2));
    let image = TaskFault::File(ReadFault::Image(BadFile::Elf));
    let rows = [
        (PlanFault::PartFile(file), "part file: cannot be opened"),
        (PlanFault::PartFile(PartsFault::TooLong), "part file: longer than 65536 bytes"),
        (PlanFault::PartFile(PartsFault::Parts(PartFault::NotToml)), "part file: not TOML"),
        (PlanFault::NoPart, "no part of this id"),
        (PlanFault::Update(0, TaskFault::ReadOnly), "update 0: the memory is read-only"),
        (PlanFault::Update(1, values), "update 1: value 2: above 255"),
        (PlanFault::Update(2, image), "update 2: ELF is not read"),
        (PlanFault::Update(3, TaskFault::Memory), "update 3: out of memory"),
        (PlanFault::Update(4, TaskFault::Unwarned), "update 4: a warning could not be printed"),
    ];
    for (fault, text) in rows {
        assert!(rt; format!(in rt.alloc(); "{fault}")?.as_str() == text, "{text}");
    }
    Ok(())
}

/// A file of the format `i`: a record, then lines without a byte, and lines of blanks past the limit. Its line is
/// checked first.
#[test]
fn empty_lines_past_the_limit(rt: HostRuntime) -> Result<(), Fail> {
    let alloc = rt.alloc();
    let rows = [
        (":0100000011EF\n\n\n", "avrstk: error: a.hex: line 1: bad checksum\n"),
        (":0100000011EE\n\n\n", "avrstk: error: a.hex: longer than 4194304 bytes\n"),
    ];
    for (record, line) in rows {
        let text = text_of(alloc, record.as_bytes(), EMPTY, 4_194_305)?;
        let mut asked = flash_of("a.hex");
        asked.format = Format::Ihex;
        assert!(rt; refuses(alloc, "a.hex", text.as_slice(), &asked, line)?);
    }
    Ok(())
}

#[test]
fn a_file_of_the_limit(rt: HostRuntime) -> Result<(), Fail> {
    let alloc = rt.alloc();
    let text = text_of(alloc, GOOD, EMPTY, 4_194_304)?;
    let line = "avrstk: warning: a.hex: no end record\n";
    assert!(rt; plans(alloc, "a.hex", text.as_slice(), &flash_of("a.hex"), 4, line)?);
    Ok(())
}

#[test]
fn images(rt: HostRuntime) -> Result<(), Fail> {
    let alloc = rt.alloc();
    let line = "avrstk: warning: a.hex: no end record\n";
    assert!(rt; plans(alloc, "a.hex", GOOD, &flash_of("a.hex"), 4, line)?);
    let mut silent = flash_of("a.hex");
    silent.quiet = 2;
    assert!(rt; plans(alloc, "a.hex", GOOD, &silent, 4, "")?);
    assert!(rt; plans(alloc, "a.hex", b"", &flash_of("a.hex"), 0, "")?);
    assert!(rt; plans(alloc, "a.bin", b"\xFF\xFF", &flash_of("a.bin"), 2, "")?);
    Ok(())
}

#[test]
fn other_files(rt: HostRuntime) -> Result<(), Fail> {
    let alloc = rt.alloc();
    let line = "avrstk: error: a.bin: ELF is not read\n";
    assert!(rt; refuses(alloc, "a.bin", b"\x7FELF", &flash_of("a.bin"), line)?);
    assert!(rt; shows(alloc, "a.bin", &ReadFault::Image(BadFile::Elf), line)?);
    let line = "avrstk: error: b.hex: cannot be opened\n";
    assert!(rt; refuses(alloc, "a.hex", b"", &flash_of("b.hex"), line)?);
    assert!(rt; shows(alloc, "b.hex", &ReadFault::File(FileFault::Absent), line)?);
    let mut fuse = flash_of("a.bin");
    fuse.memory = Mem::Lfuse;
    let line = "avrstk: error: a.bin: address 00000001 out of range\n";
    assert!(rt; refuses(alloc, "a.bin", b"ab", &fuse, line)?);
    let range = ImageFault::OutOfRange(1);
    assert!(rt; shows(alloc, "a.bin", &ReadFault::Image(BadFile::Raw(range)), line)?);
    let mut signature = flash_of("1");
    signature.memory = Mem::Signature;
    let line = "avrstk: error: signature is read-only\n";
    assert!(rt; refuses(alloc, "1", b"", &signature, line)?);
    Ok(())
}

/// Returns whether these values for the low fuse are refused with this line, and the line has the text of the fault.
fn refuses_values(
    alloc: Global,
    values: &str,
    fault: ImageFault,
    line: &str,
) -> Result<bool, AllocError> {
    let mut asked = flash_of(values);
    asked.memory = Mem::Lfuse;
    asked.format = Format::Immediate;
    Ok(refuses(alloc, "-", b"", &asked, line)? && shows(alloc, "lfuse", &fault, line)?)
}

#[test]
fn lines_of_values(rt: HostRuntime) -> Result<(), Fail> {
    let alloc = rt.alloc();
    let line = "avrstk: error: lfuse: value 1: not a number\n";
    assert!(rt; refuses_values(alloc, "-", ImageFault::BadNumber(1), line)?);
    let line = "avrstk: error: lfuse: value 1: above 255\n";
    assert!(rt; refuses_values(alloc, "0x100", ImageFault::TooLarge(1), line)?);
    let line = "avrstk: error: lfuse: address 00000001 out of range\n";
    assert!(rt; refuses_values(alloc, "0xE2, 1", ImageFault::OutOfRange(1), line)?);
    Ok(())
}

const PART: &str =
    "[parts.m328p]\nsignature = \"1E950F\"\nflash_size = 100\nflash_page = 64\neeprom_size = 1024\neeprom_page = 4\neesave_bit = 3\n";

/// Returns whether this part file is refused with this line, and the line has the text of the fault.
fn refuses_parts(
    alloc: Global,
    text: &str,
    fault: PartFault,
    line: &str,
) -> Result<bool, AllocError> {
    let asked = part_of("p.toml", "m328p");
    Ok(
        refuses(alloc, "p.toml", text.as_bytes(), &asked, line)?
            && shows(alloc, "p.toml", &fault, line)?,
    )
}

#[test]
fn lines_of_part_files(rt: HostRuntime) -> Result<(), Fail> {
    let alloc = rt.alloc();
    let line = "avrstk: error: p.toml: not TOML\n";
    assert!(rt; refuses_parts(alloc, "[", PartFault::NotToml, line)?);
    let line = "avrstk: error: p.toml: parts is missing\n";
    assert!(rt; refuses_parts(alloc, "", PartFault::Missing(Field::Parts), line)?);
    let line = "avrstk: error: p.toml: parts has a bad value\n";
    assert!(rt; refuses_parts(alloc, "parts = 1", PartFault::BadValue(Field::Parts), line)?);
    let line = "avrstk: error: p.toml: sizes do not fit\n";
    assert!(rt; refuses_parts(alloc, PART, PartFault::BadSizes, line)?);
    Ok(())
}

#[test]
fn other_parts(rt: HostRuntime) -> Result<(), Fail> {
    let alloc = rt.alloc();
    let line = "avrstk: error: no part x9\n";
    assert!(rt; refuses(alloc, "-", b"", &part_of("", "x9"), line)?);
    let long = vec![in alloc; b'\n'; 65_537]?;
    let line = "avrstk: error: p.toml: longer than 65536 bytes\n";
    assert!(rt;
        refuses(
            alloc,
            "p.toml",
            long.as_slice(),
            &part_of("p.toml", "x9"),
            line
        )?
    );
    Ok(())
}

/// Returns whether a plan prints this line at a desk whose nth call fails.
fn fails_at(alloc: Global, n: u64, line: &str) -> Result<bool, AllocError> {
    let mut desk = MemDesk::empty(alloc);
    desk.put("a.hex", b":00000001FF\n")?;
    let mut desk = FailingDesk::new(desk, n);
    let refused = plan(alloc, &settings(alloc, &flash_of("a.hex"))?, &mut desk).is_err();
    Ok(refused && desk.inner().messages() == line.as_bytes())
}

#[test]
fn a_desk_that_fails(rt: HostRuntime) -> Result<(), Fail> {
    let alloc = rt.alloc();
    let line = "avrstk: error: a.hex: cannot be opened\n";
    assert!(rt; fails_at(alloc, 1, line)?);
    assert!(rt; shows(alloc, "a.hex", &FileFault::NotOpened, line)?);
    let line = "avrstk: error: a.hex: cannot be read\n";
    assert!(rt; fails_at(alloc, 2, line)?);
    assert!(rt; fails_at(alloc, 3, line)?);
    assert!(rt; shows(alloc, "a.hex", &FileFault::NotRead, line)?);
    Ok(())
}

#[test]
fn reads_need_nothing(rt: HostRuntime) -> Result<(), Fail> {
    let alloc = rt.alloc();
    let mut desk = MemDesk::empty(alloc);
    let made = plan(alloc, &settings(alloc, &part_of("", "t85"))?, &mut desk);
    let Ok(made) = made else {
        assert!(rt; false, "no plan");
        return Ok(());
    };
    assert!(rt; made.part().id() == "t85");
    assert!(rt;
        matches!(
            made.tasks(),
            [Task::Read {
                memory: Mem::Flash,
                ..
            }]
        )
    );
    assert!(rt; made.switches().quiet == 0);
    assert!(rt; desk.uses().is_empty());
    Ok(())
}
