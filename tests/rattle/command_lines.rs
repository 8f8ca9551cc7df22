//! What no contract covers: which command lines are accepted, and how their faults are worded.
use avr_plan::{
    Format, Op, Port, Settings, SettingsFault, Switches, Update, UpdateFault, make_command,
    parse_update, read_settings, read_words,
};
use avr_part::Parts;
use clap::Error;
use clap::error::ErrorKind;
use std::alloc::Global;
use std::test::Fail;

/// Splits a command line into its arguments.
fn words(alloc: Global, line: &str) -> Result<Vec<String>, Fail> {
    let mut words = Vec::new(alloc);
    for word in line.split(' ') {
        words.push(String::from_str(alloc, word)?)?;
    }
    Ok(words)
}

/// Reads the settings of a command line.
fn asked(alloc: Global, line: &str) -> Result<Result<Settings, SettingsFault>, Fail> {
    let words = words(alloc, line)?;
    let matches = read_words(alloc, words.as_slice())?;
    Ok(read_settings(alloc, &matches))
}

/// Returns the error with which `clap` refuses a command line.
fn refusal(alloc: Global, line: &str) -> Result<Error, Fail> {
    let words = words(alloc, line)?;
    match read_words(alloc, words.as_slice()) {
        Ok(_) => Err(Fail::from("the line is taken")),
        Err(error) => Ok(error),
    }
}

/// Appends where the programmer is, in a word or two.
fn add_port(text: &mut String, port: &Port) -> Result<(), Fail> {
    match port {
        Port::Stdio => text.push_str("stdio")?,
        Port::Emulated(chip) => {
            text.push_str("emu ")?;
            text.push_str(chip.as_str())?;
        }
        Port::Network(address) => {
            text.push_str("net ")?;
            text.push_str(address.as_str())?;
        }
        Port::Served { port, chip } => {
            text.push_str("serve ")?;
            text.push_str(port.as_str())?;
            text.push_str(" ")?;
            text.push_str(chip.as_str())?;
        }
    }
    Ok(())
}

/// Appends an update such as `flash w i a.hex`: memory, operation, format (`a` for any) and file.
fn add_update(text: &mut String, update: &Update) -> Result<(), Fail> {
    let op = match update.op {
        Op::Read => " r ",
        Op::Write => " w ",
        Op::Verify => " v ",
    };
    let format = match update.format {
        Format::Auto => "a ",
        Format::Ihex => "i ",
        Format::Srec => "s ",
        Format::Raw => "r ",
        Format::Immediate => "m ",
        Format::Decimal => "d ",
        Format::Hexadecimal => "h ",
        Format::Octal => "o ",
        Format::Binary => "b ",
    };
    text.push_str(update.memory.name())?;
    text.push_str(op)?;
    text.push_str(format)?;
    text.push_str(update.file.as_str())?;
    Ok(())
}

fn add_switches(text: &mut String, switches: Switches) -> Result<(), Fail> {
    let letters = [
        (switches.erase, "e"),
        (switches.keep_flash, "D"),
        (switches.no_verify, "V"),
        (switches.dry, "n"),
        (switches.force, "F"),
        (switches.all, "A"),
        (switches.quiet > 0, "q"),
        (switches.quiet > 1, "q"),
    ];
    for (is_on, letter) in letters {
        if is_on {
            text.push_str(letter)?;
        }
    }
    Ok(())
}

/// Returns part, port, switches, part file and updates as text: `m328p, stdio, eq, p.toml, flash w a a.hex`. What isn't
/// given is left out.
fn shown(alloc: Global, settings: &Settings) -> Result<String, Fail> {
    let mut text = String::from_str(alloc, settings.part.as_str())?;
    text.push_str(", ")?;
    add_port(&mut text, &settings.port)?;
    text.push_str(", ")?;
    add_switches(&mut text, settings.switches)?;
    if let Some(parts) = &settings.parts {
        text.push_str(", ")?;
        text.push_str(parts.as_str())?;
    }
    for update in settings.updates.as_slice() {
        text.push_str(", ")?;
        add_update(&mut text, update)?;
    }
    Ok(text)
}

/// Returns the message of a fault, or for a port the text that it holds.
fn shown_fault(alloc: Global, fault: &SettingsFault) -> Result<String, Fail> {
    match fault {
        SettingsFault::BadPort(Some(text)) => Ok(format!(in alloc; "port {}", text.as_str())?),
        _ => Ok(format!(in alloc; "{fault}")?),
    }
}

/// Returns the settings of a command line as text, or the text of its fault.
fn read(alloc: Global, line: &str) -> Result<String, Fail> {
    let line = format!(in alloc; "avrstk {line}")?;
    match asked(alloc, line.as_str())? {
        Ok(settings) => shown(alloc, &settings),
        Err(fault) => shown_fault(alloc, &fault),
    }
}

#[test]
fn lines_ask_for_runs(rt: HostRuntime) -> Result<(), Fail> {
    let alloc = rt.alloc();
    let rows = [
        ("-c stk500v2 -p m328p -P stdio:", "m328p, stdio, "),
        ("-p m328p -P emu:chip.bin", "m328p, emu chip.bin, "),
        ("-p m328p -P net:localhost:5000", "m328p, net localhost:5000, "),
        ("-p m328p -P net:::1:5000", "m328p, net ::1:5000, "),
        ("-p m328p -P net:h:00080", "m328p, net h:00080, "),
        ("--serve 5000 --chip chip.bin -p m328p", "m328p, serve 5000 chip.bin, "),
        ("-p m328p -P emu:c -U flash", "m328p, emu c, , flash w a flash"),
        (
            "-p m328p -P emu:c -U lfuse:w:0xE2:m -U lfuse:r:-:i",
            "m328p, emu c, , lfuse w m 0xE2, lfuse r i -",
        ),
        ("-pm328p -eDVnFAqq -Pstdio:", "m328p, stdio, eDVnFAqq"),
        ("-p m328p -P stdio: -e -q -n", "m328p, stdio, enq"),
        ("-b 115200 -v --parts p.toml -p x1 -P stdio: -vv", "x1, stdio, , p.toml"),
        ("-b +5 -p m328p -P stdio:", "m328p, stdio, "),
        ("-P stdio: -p m9 -e -P x -e -pm328p -P stdio:", "m328p, stdio, e"),
        ("-p m328p -P stdio: --chip x", "m328p, stdio, "),
        ("-p m328p --serve 5000 --chip ", "m328p, serve 5000 , "),
        (
            "-p m328p --serve=5000 --chip=c -e -c x -P y -U boot:w:a",
            "m328p, serve 5000 c, ",
        ),
        (
            "-p m328p -P emu:c -U - -U flash:r:-:i",
            "m328p, emu c, , flash w a -, flash r i -",
        ),
        ("-p m328p -P stdio: -U lfuse:w:-:m", "m328p, stdio, , lfuse w m -"),
    ];
    for (line, wanted) in rows {
        assert!(rt; read(alloc, line)?.as_str() == wanted, "{line}");
    }
    Ok(())
}

#[test]
fn the_first_fault_of_a_line_is_reported(rt: HostRuntime) -> Result<(), Fail> {
    let alloc = rt.alloc();
    let no_part = "no part given (-p)";
    let no_port = "no port given, or one that is not known";
    let taken = "standard streams are taken";
    let rows = [
        ("-c x -P y -U boot:w:a --parts -", no_part),
        ("--serve 0", no_part),
        ("-p m328p -c x -P y -U boot:w:a", "programmer x is not known"),
        ("-p m328p -c stk500v2 -P y -U boot:w:a", "port y"),
        ("-p m328p -U boot:w:a", no_port),
        ("-p m328p -P emu:", "port emu:"),
        ("-p m328p -P net::5000", "port net::5000"),
        ("-p m328p -P net:localhost:0", "port net:localhost:0"),
        ("-p m328p -P net:localhost", "port net:localhost"),
        ("-p m328p -P net:h:65536", "port net:h:65536"),
        ("-p m328p -P net:h:+80", "port net:h:+80"),
        ("-p m328p --serve 65536", "port 65536"),
        ("--serve 5000 -p m328p", "no chip file given (--chip)"),
        (
            "-p m328p -P stdio: -U flash:w:a.hex:h",
            "update 1: no such format here",
        ),
        (
            "-p m328p -P stdio: -U flash:r:-:i -U boot:w:a",
            "update 2: no such memory",
        ),
        ("-p m328p -P stdio: -U flash:r:-:i", taken),
        ("-p m328p -P emu:c -U - -U eeprom:w:-:i", taken),
        ("-p m328p -P emu:c --parts -", taken),
        ("-p m328p -P emu:-", taken),
        ("-p m328p --serve 1 --chip -", taken),
        ("-p m328p -P net:h:1 --chip -", taken),
    ];
    for (line, wanted) in rows {
        assert!(rt; read(alloc, line)?.as_str() == wanted, "{line}");
    }
    Ok(())
}

#[test]
fn sixteen_updates_are_the_most(rt: HostRuntime) -> Result<(), Fail> {
    let alloc = rt.alloc();
    let mut line = String::from_str(alloc, "avrstk -p m328p -P emu:c")?;
    for _ in 0..16 {
        line.push_str(" -Ua")?;
    }
    let Ok(settings) = asked(alloc, line.as_str())? else {
        return Err(Fail::from("a fault"));
    };
    assert!(rt; settings.updates.as_slice().len() == 16);
    line.push_str(" -Uboot:")?;
    assert!(rt; matches!(asked(alloc, line.as_str())?, Err(SettingsFault::TooMany)));
    Ok(())
}

#[test]
fn updates_are_read(rt: HostRuntime) -> Result<(), Fail> {
    let alloc = rt.alloc();
    let rows = [
        ("flash", "flash w a flash"),
        ("flash:w:a.hex:i", "flash w i a.hex"),
        ("eeprom:v:a.srec:s", "eeprom v s a.srec"),
        ("lfuse:w:0xE2:m", "lfuse w m 0xE2"),
        ("lfuse:r:-:h", "lfuse r h -"),
        ("lock:r:lock.txt:b", "lock r b lock.txt"),
        ("calibration:r:c:o", "calibration r o c"),
        ("signature:r:out", "signature r r out"),
        ("efuse:w:in", "efuse w a in"),
        ("flash:v:c:/a.hex:i", "flash v i c:/a.hex"),
        ("flash:w:a:", "flash w a a:"),
        ("flash:w:i", "flash w a i"),
        // the letter after the last colon has two bytes
        ("flash:w:x:é", "flash w a x:é"),
    ];
    for (update, wanted) in rows {
        let Ok(read) = parse_update(alloc, update) else {
            return Err(Fail::from(update));
        };
        let mut text = String::new(alloc);
        add_update(&mut text, &read)?;
        assert!(rt; text.as_str() == wanted, "{update}");
    }
    Ok(())
}

#[test]
fn the_first_fault_of_an_update_is_reported(rt: HostRuntime) -> Result<(), Fail> {
    let alloc = rt.alloc();
    let rows = [
        ("", UpdateFault::NoFile),
        ("flash:w:a::", UpdateFault::BadFormat),
        ("boot:w:a", UpdateFault::BadMemory),
        ("fuse:x", UpdateFault::BadMemory),
        (":w:a", UpdateFault::BadMemory),
        ("flash:x:a:i", UpdateFault::BadOp),
        ("flash:", UpdateFault::BadOp),
        ("flash::a", UpdateFault::BadOp),
        ("flash:w", UpdateFault::NoFile),
        ("flash:w::x", UpdateFault::NoFile),
        ("flash:w:::", UpdateFault::NoFile),
        ("flash:w:a.hex:h", UpdateFault::BadFormat),
        ("lfuse:r:x:m", UpdateFault::BadFormat),
        ("flash:r:x:a", UpdateFault::BadFormat),
    ];
    for (update, wanted) in rows {
        match parse_update(alloc, update) {
            Ok(_) => assert!(rt; false, "{update}"),
            Err(fault) => assert!(rt; fault == wanted, "{update}"),
        }
    }
    Ok(())
}

#[test]
fn faults_have_numbers(rt: HostRuntime) -> Result<(), Fail> {
    let alloc = rt.alloc();
    let rows = [
        ("avrstk", 1),
        ("avrstk -p m328p -c x", 2),
        ("avrstk -p m328p", 3),
        ("avrstk -p m328p -P stdio: -U boot:w:a", 5),
        ("avrstk -p m328p -P stdio: -U flash:r:-", 6),
        ("avrstk -p m328p --serve 5000", 8),
    ];
    for (line, number) in rows {
        match asked(alloc, line)? {
            Ok(_) => assert!(rt; false, "{line}"),
            Err(fault) => assert!(rt; fault.number() == number, "{line}"),
        }
    }
    Ok(())
}

#[test]
fn clap_refuses_other_lines(rt: HostRuntime) -> Result<(), Fail> {
    let alloc = rt.alloc();
    let rows = [
        ("avrstk -C x", ErrorKind::UnknownArgument),
        ("avrstk --version", ErrorKind::UnknownArgument),
        ("avrstk m328p", ErrorKind::UnknownArgument),
        ("avrstk -b -1", ErrorKind::UnknownArgument),
        ("avrstk -p", ErrorKind::InvalidValue),
        ("avrstk -b 0x10", ErrorKind::ValueValidation),
        ("avrstk -b 4294967296", ErrorKind::ValueValidation),
    ];
    for (line, wanted) in rows {
        let error = refusal(alloc, line)?;
        assert!(rt; error.kind() == wanted && error.use_stderr(), "{line}");
    }
    assert!(rt; refusal(alloc, "avrstk -p m328p -h")?.kind() == ErrorKind::DisplayHelp);
    Ok(())
}

#[test]
fn help_names_every_option(rt: HostRuntime) -> Result<(), Fail> {
    let alloc = rt.alloc();
    let error = refusal(alloc, "avrstk -h")?;
    assert!(rt; error.kind() == ErrorKind::DisplayHelp && !error.use_stderr());
    let text = format!(in alloc; "{error}")?;
    let rows = [
        "Usage: avrstk [OPTIONS]\n",
        "  -p <ID>             The part: m328p, t85, m2560, or one of a part file; needed\n",
        "  -c <NAME> ",
        "  -P <PORT> ",
        "  -U <UPDATE> ",
        "  -e ",
        "  -D ",
        "  -V ",
        "  -n ",
        "  -F ",
        "  -A ",
        "  -q... ",
        "  -b <N> ",
        "  -v... ",
        "  --parts <FILE> ",
        "  --serve <PORT> ",
        "  --chip <FILE> ",
        "stdio:, emu:CHIPFILE or net:HOST:PORT",
        "MEMORY:OP:FILE:FORMAT",
        "flash, eeprom, lfuse, hfuse, efuse, lock, signature or calibration",
    ];
    for row in rows {
        assert!(rt; text.as_str().contains(row), "{row} is missing");
    }
    Ok(())
}

#[test]
fn help_is_the_command_s_own(rt: HostRuntime) -> Result<(), Fail> {
    let alloc = rt.alloc();
    let mut command = make_command(alloc)?;
    let help = command.render_help()?;
    let error = refusal(alloc, "avrstk --help")?;
    let text = format!(in alloc; "{error}")?;
    assert!(rt; help.as_str() == text.as_str());
    Ok(())
}

#[test]
fn help_names_every_built_in_part(rt: HostRuntime) -> Result<(), Fail> {
    let mut command = make_command(rt.alloc())?;
    let help = command.render_help()?;
    for part in Parts::none().iter() {
        assert!(rt; help.as_str().contains(part.id()));
    }
    Ok(())
}
