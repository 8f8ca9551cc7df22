//! Calls of avr_plan's public functions, as in its documentation.
use avr_plan::{
    Format, Op, Port, Settings, SettingsFault, Text, UpdateFault, Updates, make_command,
    parse_update, port_number, read_settings, read_words,
};
use avr_part::Mem;
use std::test::Fail;

#[test]
fn words_make_settings(rt: HostRuntime) -> Result<(), Fail> {
    let alloc = rt.alloc();
    let mut words = Vec::new(alloc);
    for word in ["avrstk", "-p", "m328p", "-P", "emu:chip.bin", "-U", "a.hex"] {
        words.push(String::from_str(alloc, word)?)?;
    }
    let matches = read_words(alloc, words.as_slice())?;
    assert!(rt; matches.get_str("part") == Some("m328p"));
    let settings = read_settings(alloc, &matches)?;
    assert!(rt; settings.part.as_str() == "m328p");
    assert!(rt; matches!(&settings.port, Port::Emulated(file) if file.as_str() == "chip.bin"));
    assert_eq!(rt; settings.updates.as_slice().len(), 1);
    Ok(())
}

#[test]
fn the_command_has_help(rt: HostRuntime) -> Result<(), Fail> {
    let alloc = rt.alloc();
    let mut command = make_command(alloc)?;
    let help = command.render_help()?;
    assert!(rt; help.as_str().contains("Usage: avrstk [OPTIONS]"));
    Ok(())
}

#[test]
fn updates_are_parsed(rt: HostRuntime) -> Result<(), Fail> {
    let alloc = rt.alloc();
    let update = parse_update(alloc, "lfuse:w:0xE2:m")?;
    assert!(rt; update.memory == Mem::Lfuse && update.op == Op::Write);
    assert!(rt; update.format == Format::Immediate && update.file.as_str() == "0xE2");
    assert!(rt;
        matches!(
            parse_update(alloc, "boot:w:a.hex"),
            Err(UpdateFault::BadMemory)
        )
    );
    let mut updates = Updates::new(alloc);
    updates.push(parse_update(alloc, "flash:w:a.hex")?)?;
    assert_eq!(rt; updates.as_slice().len(), 1);
    Ok(())
}

#[test]
fn settings_are_made_for_a_link(rt: HostRuntime) -> Result<(), Fail> {
    let alloc = rt.alloc();
    let mut settings = Settings::for_link(alloc, "m328p")?;
    settings
        .updates
        .push(parse_update(alloc, "flash:w:a.hex")?)?;
    settings.switches.erase = true;
    assert!(rt; settings.part.as_str() == "m328p" && settings.parts.is_none());
    assert!(rt; matches!(&settings.port, Port::Stdio));
    assert_eq!(rt; settings.updates.as_slice().len(), 1);
    Ok(())
}

#[test]
fn ports_have_numbers(rt: HostRuntime) {
    assert!(rt; port_number("5000") == Some(5000) && port_number("00080") == Some(80));
    assert!(rt; port_number("0").is_none() && port_number("65536").is_none());
    assert!(rt; port_number("+80").is_none() && port_number("").is_none());
}

#[test]
fn texts_are_kept(rt: HostRuntime) -> Result<(), Fail> {
    let alloc = rt.alloc();
    let text = Text::new(alloc, "chip.bin")?;
    assert!(rt; text.as_str() == "chip.bin");
    Ok(())
}

#[test]
fn faults_are_numbered(rt: HostRuntime) {
    assert_eq!(rt; SettingsFault::NoPart.number(), 1);
    assert_eq!(rt; SettingsFault::NoChip.number(), 8);
    assert_eq!(rt; UpdateFault::NoFile.number(), 4);
}
