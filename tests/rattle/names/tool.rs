//= avr_tool Update UpdateFault Settings SettingsFault Plan UpdateFault::BadMemory UpdateFault::BadOp
//= UpdateFault::BadFormat UpdateFault::NoFile UpdateFault::Memory SettingsFault::NoPart SettingsFault::BadProgrammer
//= SettingsFault::BadPort SettingsFault::TooMany SettingsFault::BadUpdate SettingsFault::StandardTaken
//= SettingsFault::Memory SettingsFault::NoChip parse_update UpdateFault::number settings SettingsFault::number refuse
//= plan Plan::part drive run drive_wired run_emu serve serve_for run_net serve_net serve_on Link LinkFault Heard TapeLink
//= StreamLink Desk MemDesk SystemDesk
use avr_tool::{
    Chip, Desk, DeskFault, Heard, Item, Link, LinkFault, MemDesk, Parts, PartsFault, Plan,
    PlanFault, Port, Settings, SettingsFault, StreamLink, SystemDesk, TapeLink, TaskFault, Text,
    Unlocked, Update, UpdateFault, Wired, drive, drive_wired, listen, parse_update, plan,
    read_words, refuse, run, run_emu, run_net, serve, serve_for, serve_net, serve_on, settings,
};
use std::alloc::Global;
use std::test::Fail;
use super::desk::Own;

fn silent(alloc: Global) -> TapeLink {
    TapeLink::new(alloc, Vec::new(alloc), 281)
}

/// Returns settings for the part, at a port that is served.
fn served(alloc: Global, part: &str) -> Result<Settings, Fail> {
    let mut settings = Settings::for_link(alloc, part)?;
    let [port, chip] = [Text::new(alloc, "5000")?, Text::new(alloc, "chip.bin")?];
    settings.port = Port::Served { port, chip };
    Ok(settings)
}

#[test]
fn settings_and_plans(rt: HostRuntime) -> Result<(), Fail> {
    let alloc = rt.alloc();
    let update: Result<Update, UpdateFault> = parse_update(alloc, "flash:w:a.hex:i");
    assert!(rt; update.is_ok());
    let words: Vec<String> = Vec::new(alloc);
    let matches = read_words(alloc, words.as_slice())?;
    let read: Result<Settings, SettingsFault> = settings(alloc, &matches);
    let mut desk = MemDesk::empty(alloc);
    if let Err(fault) = read {
        let refused: u8 = refuse(&fault, &mut desk);
        assert!(rt; refused == 1 && desk.messages() == b"avrstk: error: no part given (-p)\n".as_slice());
    }
    let planned: Result<Plan, u8> = plan(alloc, &Settings::for_link(alloc, "m328p")?, &mut desk);
    assert!(rt; planned.is_ok());
    Ok(())
}

#[test]
fn sessions(rt: HostRuntime) -> Result<(), Fail> {
    let alloc = rt.alloc();
    let mut desk = MemDesk::empty(alloc);
    let wanted: Settings = Settings::for_link(alloc, "m328p")?;
    let Ok(planned) = plan(alloc, &wanted, &mut desk) else {
        return Err(Fail::from("no plan"));
    };
    assert!(rt; planned.part().id() == "m328p");
    let status: u8 = drive(alloc, &planned, &mut desk, &mut silent(alloc));
    assert!(rt; status == 1);
    let status: u8 = run(alloc, &wanted, &mut desk, &mut silent(alloc));
    assert!(rt; status == 1);
    let chip = Chip::fresh(alloc, Parts::none().find("m328p")?)?;
    let mut wired = Wired::new(alloc, chip, Vec::new(alloc));
    let status: u8 = drive_wired(alloc, &planned, &mut desk, &mut wired);
    assert!(rt; status == 0);
    Ok(())
}

/// A desk of six calls, as it was set, does for all runs: [`Unlocked`] adds three for those with a chip file.
#[test]
fn ports(rt: HostRuntime) -> Result<(), Fail> {
    let alloc = rt.alloc();
    let mut desk = Unlocked::new(Own::empty(alloc));
    let mut emulated = Settings::for_link(alloc, "m328p")?;
    emulated.port = Port::Emulated(Text::new(alloc, "chip.bin")?);
    let status: u8 = run_emu(alloc, &emulated, &mut desk);
    assert!(rt; status == 0 && desk.inner().inner.file("chip.bin").is_some());
    let status: u8 = serve(alloc, &served(alloc, "m328p")?, &mut desk, &mut silent(alloc));
    assert!(rt; status == 0);
    let mut idle = TapeLink::new(alloc, vec![in alloc; Item::Silence; 5]?, 281);
    let status: u8 = serve_for(alloc, &served(alloc, "m328p")?, &mut desk, &mut idle, 3);
    assert!(rt; status == 1);
    let nobody = served(alloc, "nobody")?;
    let status: u8 = serve_net(&rt, alloc, &nobody, &mut desk);
    assert!(rt; status == 1);
    let status: u8 = serve_on(&rt, alloc, &nobody, listen(&rt, 0)?, &mut desk);
    assert!(rt; status == 1);
    let mut distant = Settings::for_link(alloc, "nobody")?;
    distant.port = Port::Network(Text::new(alloc, "localhost:5000")?);
    let status: u8 = run_net(&rt, alloc, &distant, &mut desk.into_inner());
    assert!(rt; status == 1);
    Ok(())
}

/// The traits and types of links and desks have their names here too.
fn received_over<D: Desk, L: Link>(
    desk: &mut D,
    link: &mut L,
) -> (Result<usize, DeskFault>, Result<Heard, LinkFault>) {
    let mut buffer = [0u8; 4];
    (desk.out(b""), link.recv(&mut buffer))
}

#[test]
fn devices(rt: HostRuntime) {
    let alloc = rt.alloc();
    let mut desk = SystemDesk::new(&rt, Vec::new(alloc), Vec::new(alloc));
    let mut streams = StreamLink::new(b"".as_slice(), Vec::new(alloc));
    let (_, heard) = received_over(&mut desk, &mut streams);
    assert!(rt; heard == Ok(Heard::End));
}

#[test]
fn numbers(rt: HostRuntime) -> Result<(), Fail> {
    let alloc = rt.alloc();
    let faults: [(SettingsFault, u8); 8] = [
        (SettingsFault::NoPart, 1),
        (SettingsFault::BadProgrammer(Text::new(alloc, "x")?), 2),
        (SettingsFault::BadPort(None), 3),
        (SettingsFault::TooMany, 4),
        (SettingsFault::BadUpdate(1, UpdateFault::BadOp), 5),
        (SettingsFault::StandardTaken, 6),
        (SettingsFault::Memory, 7),
        (SettingsFault::NoChip, 8),
    ];
    for (fault, number) in &faults {
        assert!(rt; fault.number() == *number);
    }
    let faults: [(UpdateFault, u8); 5] = [
        (UpdateFault::BadMemory, 1),
        (UpdateFault::BadOp, 2),
        (UpdateFault::BadFormat, 3),
        (UpdateFault::NoFile, 4),
        (UpdateFault::Memory, 5),
    ];
    for (fault, number) in faults {
        assert!(rt; fault.number() == number);
    }
    assert!(rt; PlanFault::NoPart.number() == 2 && TaskFault::ReadOnly.number() == 1);
    assert!(rt; PartsFault::TooLong.number() == 2);
    Ok(())
}
