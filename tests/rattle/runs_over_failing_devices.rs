//! Runs in which each call of a device fails in turn, and runs over links that pass few bytes at once.
ghost use Rattle.std.specs.Prelude.{◌<◌};

use crate::data::digits::OPENING;
use crate::support::{
    Over, Row, desk_with, fates, holds, joined, pattern, printed, run_on, run_row, settings_for,
    shows, wire_to,
};
use avr_desk::{FailingDesk, MemDesk};
use avr_part::Mem;
use avr_plan::{Plan, plan};
use avr_session::drive;
use std::alloc::Global;
use std::ops::Range;
use std::process::Abort;
use std::test::Fail;
use stk_emu::{Fate, Fates, Wired};
use stk_host::FailingLink;

/// A run without failures, and the number of calls that it makes of its devices.
#[derive(Drop)]
struct SoundRun {
    part: &'static str,
    row: Row,
    /// The size of the file `e.bin`. At the end the EEPROM begins with its bytes.
    size: u32,
    /// Whether the reply to frame 255 is late.
    is_late: bool,
    /// Two calls for each frame.
    link_calls: u64,
    /// A call for each message, each write to standard output, and each opening and reading of a file.
    desk_calls: u64,
    /// The calls of the desk whose failure is reported, with the report. A call that prints has none.
    notice: &'static [(u64, &'static [&'static str])],
}

type OverFailing = Over<FailingDesk<MemDesk>, FailingLink<Wired>>;

/// A session without updates.
const SESSION: SoundRun = SoundRun {
    part: "m328p",
    row: Row {
        words: &["-p", "m328p"],
        output: "",
        messages: &["device signature = 1E 95 0F", "done"],
        status: 0,
    },
    size: 0,
    is_late: false,
    link_calls: 12,
    desk_calls: 2,
    notice: &[],
};

/// Writes an empty file to flash: five frames open the session, then come the erase, 256 frames of verifying, and LEAVE.
const EMPTY_FLASH: SoundRun = SoundRun {
    part: "m328p",
    row: Row {
        words: &["-p", "m328p", "-U", "flash:w:e.bin:r"],
        output: "",
        messages: &[
            "device signature = 1E 95 0F",
            "chip erased",
            "flash: 0 bytes written",
            "flash: 0 bytes verified",
            "done",
        ],
        status: 0,
    },
    size: 0,
    is_late: false,
    link_calls: 2 * 263,
    desk_calls: 2 + 5,
    notice: &[
        (1, &["error: e.bin: cannot be opened"]),
        (2, &["error: e.bin: cannot be read"]),
    ],
};

/// Writes, verifies and reads a fuse. The fourth call of the desk writes its value to standard output.
const FUSE: SoundRun = SoundRun {
    part: "m328p",
    row: Row {
        words: &["-p", "m328p", "-U", "lfuse:w:0xE2:m", "-U", "lfuse:r:-:h"],
        output: "0xe2\n",
        messages: &[
            "device signature = 1E 95 0F",
            "lfuse: 1 bytes written",
            "lfuse: 1 bytes verified",
            "lfuse: 1 bytes read",
            "done",
        ],
        status: 0,
    },
    size: 0,
    is_late: false,
    link_calls: 18,
    desk_calls: 3 + 1 + 2,
    notice: &[(4, &["error: -: cannot be written"])],
};

/// Writes the whole EEPROM, over a wire on which the reply to frame 255 is late.
const EEPROM: SoundRun = SoundRun {
    part: "m328p",
    row: Row {
        words: &["-p", "m328p", "-V", "-U", "eeprom:w:e.bin:r"],
        output: "",
        messages: &[
            "device signature = 1E 95 0F",
            "eeprom: 1024 bytes written",
            "done",
        ],
        status: 0,
    },
    size: 1024,
    is_late: true,
    link_calls: 2 * 520,
    desk_calls: 3 + 3,
    notice: &[
        (1, &["error: e.bin: cannot be opened"]),
        (2, &["error: e.bin: cannot be read"]),
        (3, &["error: e.bin: cannot be read"]),
    ],
};

const RUNS: &[SoundRun] = &[SESSION, EMPTY_FLASH, FUSE, EEPROM];

fn desk_of(alloc: Global, run: &SoundRun) -> Result<MemDesk, Fail> {
    let bytes = pattern(alloc, run.size)?;
    desk_with(alloc, &[("e.bin", bytes.as_slice())])
}

fn wire_of(alloc: Global, run: &SoundRun) -> Result<Wired, Fail> {
    if run.is_late {
        wire_to(alloc, run.part, fates(alloc, 254, Fate::LateAnswer)?)
    } else {
        wire_to(alloc, run.part, Fates::none(alloc))
    }
}

/// Makes the run without failures, and checks it.
fn sound(rt: &impl Abort, alloc: Global, run: &SoundRun) -> Result<Over<MemDesk, Wired>, Fail> {
    run_row(
        rt,
        alloc,
        &run.row,
        desk_of(alloc, run)?,
        wire_of(alloc, run)?,
    )
}

/// Makes the run with a failing call of the desk, counted from 1 (0 for none). The link passes at most `cut` bytes at
/// once.
fn failing(alloc: Global, run: &SoundRun, desk_call: u64, cut: usize) -> Result<OverFailing, Fail>
    requires { 0 < cut }
{
    let desk = FailingDesk::new(desk_of(alloc, run)?, desk_call);
    let link = FailingLink::new(wire_of(alloc, run)?, 0, cut);
    run_on(alloc, run.row.words, desk, link)
}

/// Returns whether the messages `emitted` are a proper prefix of those of a good run, followed by the report `notice` on a
/// line of its own.
fn is_prefix(emitted: &[u8], sound: &[u8], notice: &[u8]) -> bool {
    match emitted.strip_suffix(notice) {
        Some(prefix) => {
            prefix.len() < sound.len()
                && sound.starts_with(prefix)
                && (notice.is_empty() || prefix.is_empty() || prefix.ends_with(b"\n"))
        }
        None => false,
    }
}

/// Checks a run that broke off. What it sent and wrote is a prefix of what the good run did; so are its messages,
/// except for these lines at the end.
fn broke_off(
    rt: &impl Abort,
    alloc: Global,
    sound: &Over<MemDesk, Wired>,
    broken: (&MemDesk, &Wired, u8),
    notice: &[&str],
    n: u64,
) -> Result<(), Fail> {
    let notice = printed(alloc, notice)?;
    let (desk, wire, status) = broken;
    assert!(rt; status == 1, "call {n}");
    assert!(rt; sound.link.sent().starts_with(wire.sent()), "call {n}");
    assert!(rt; sound.desk.output().starts_with(desk.output()), "call {n}");
    assert!(rt;
        is_prefix(desk.messages(), sound.desk.messages(), notice.as_slice()),
        "call {n}"
    );
    Ok(())
}

/// Makes the plan of a run, for all its sessions.
fn plan_of(alloc: Global, run: &SoundRun) -> Result<Plan, Fail> {
    let settings = settings_for(alloc, run.row.words)?;
    match plan(alloc, &settings, &mut desk_of(alloc, run)?) {
        Ok(plan) => Ok(plan),
        Err(_) => Err(Fail::from("no plan")),
    }
}

/// Lets each of these calls of the link fail. Odd calls send a frame: if one fails, no more is sent than in the run
/// before. Even calls receive the reply. Only the session is run anew, since planning makes no call of the link.
fn fail_link_calls(
    rt: &impl Abort,
    alloc: Global,
    run: &SoundRun,
    calls: Range<u64>,
) -> Result<(), Fail> {
    let sound = sound(rt, alloc, run)?;
    let plan = plan_of(alloc, run)?;
    let mut before = if calls.start == 1 { Some(0) } else { None };
    for n in calls {
        let mut desk = MemDesk::empty(alloc);
        let mut link = FailingLink::new(wire_of(alloc, run)?, n, 281);
        let status = drive(alloc, &plan, &mut desk, &mut link);
        let sends = n % 2 == 1;
        let notice = if sends {
            "error: link cannot be written"
        } else {
            "error: link cannot be read"
        };
        let wire = link.inner();
        broke_off(rt, alloc, &sound, (&desk, wire, status), &[notice], n)?;
        let sent = wire.sent().len();
        if let Some(before) = before {
            assert!(rt; sends == (sent == before) && before <= sent, "call {n}");
        }
        before = Some(sent);
    }
    Ok(())
}

/// Checks that a run makes as many calls of the link as it says.
fn no_other_call_fails(rt: &impl Abort, alloc: Global, run: &SoundRun) -> Result<(), Fail> {
    let plan = plan_of(alloc, run)?;
    let mut desk = MemDesk::empty(alloc);
    let mut link = FailingLink::new(wire_of(alloc, run)?, run.link_calls + 1, 281);
    assert!(rt; drive(alloc, &plan, &mut desk, &mut link) == 0);
    Ok(())
}

fn fail_each_link_call(rt: &impl Abort, alloc: Global, run: &SoundRun) -> Result<(), Fail> {
    fail_link_calls(rt, alloc, run, 1..run.link_calls + 1)?;
    no_other_call_fails(rt, alloc, run)
}

#[test]
fn each_call_of_the_link_fails(rt: HostRuntime) -> Result<(), Fail> {
    fail_each_link_call(&rt, rt.alloc(), &SESSION)?;
    fail_each_link_call(&rt, rt.alloc(), &FUSE)
}

/// (only in ./test --all)
#[test]
fn each_call_of_the_link_fails_over_an_empty_flash(rt: HostRuntime) -> Result<(), Fail> {
    fail_each_link_call(&rt, rt.alloc(), &EMPTY_FLASH)
}

/// (only in ./test --all)
#[test]
fn each_call_of_the_link_fails_over_quarter_1_of_an_eeprom(rt: HostRuntime) -> Result<(), Fail> {
    fail_link_calls(&rt, rt.alloc(), &EEPROM, 1..261)
}

/// (only in ./test --all)
#[test]
fn each_call_of_the_link_fails_over_quarter_2_of_an_eeprom(rt: HostRuntime) -> Result<(), Fail> {
    fail_link_calls(&rt, rt.alloc(), &EEPROM, 260..521)
}

/// (only in ./test --all)
#[test]
fn each_call_of_the_link_fails_over_quarter_3_of_an_eeprom(rt: HostRuntime) -> Result<(), Fail> {
    fail_link_calls(&rt, rt.alloc(), &EEPROM, 520..781)
}

/// (only in ./test --all)
#[test]
fn each_call_of_the_link_fails_over_quarter_4_of_an_eeprom(rt: HostRuntime) -> Result<(), Fail> {
    fail_link_calls(&rt, rt.alloc(), &EEPROM, 780..1041)?;
    no_other_call_fails(&rt, rt.alloc(), &EEPROM)
}

/// Returns the report of a failure of this call of the desk.
fn notice_of(run: &SoundRun, n: u64) -> &'static [&'static str] {
    for (call, lines) in run.notice {
        if *call == n {
            return *lines;
        }
    }
    &[]
}

fn fail_each_desk_call(rt: &impl Abort, alloc: Global, run: &SoundRun) -> Result<(), Fail> {
    let sound = sound(rt, alloc, run)?;
    let mut failures = 0u64;
    for n in 1..2_000u64 {
        let broken = failing(alloc, run, n, 281)?;
        if broken.status == 0 {
            break;
        }
        failures = failures.wrapping_add(1);
        let over = (broken.desk.inner(), broken.link.inner(), broken.status);
        broke_off(rt, alloc, &sound, over, notice_of(run, n), n)?;
    }
    assert!(rt; failures == run.desk_calls);
    Ok(())
}

#[test]
fn each_call_of_the_desk_fails(rt: HostRuntime) -> Result<(), Fail> {
    for run in RUNS {
        fail_each_desk_call(&rt, rt.alloc(), run)?;
    }
    Ok(())
}

/// Checks that a link that passes few bytes at once changes nothing that the run sends, prints or does.
fn pass_in_pieces(rt: &impl Abort, alloc: Global, run: &SoundRun) -> Result<(), Fail> {
    let sound = sound(rt, alloc, run)?;
    let bytes = pattern(alloc, run.size)?;
    for cut in [1, 2, 3, 5, 280, 281usize] {
        let over = failing(alloc, run, 0, cut.max(1))?;
        let wire = over.link.inner();
        shows(rt, alloc, &run.row, over.desk.inner(), over.status)?;
        assert!(rt; wire.sent() == sound.link.sent(), "in pieces of {cut}");
        assert!(rt;
            holds(wire.chip(), Mem::Eeprom, bytes.as_slice()),
            "in pieces of {cut}"
        );
    }
    Ok(())
}

#[test]
fn pieces_change_nothing(rt: HostRuntime) -> Result<(), Fail> {
    for run in RUNS {
        pass_in_pieces(&rt, rt.alloc(), run)?;
    }
    Ok(())
}

/// The desk prints the line of the signature, then fails to write the fuse. The sixth frame is the last.
#[test]
fn no_leave_follows_an_output_that_fails(rt: HostRuntime) -> Result<(), Fail> {
    let alloc = rt.alloc();
    let row = Row {
        words: &["-p", "m328p", "-U", "lfuse:r:-:h"],
        output: "",
        messages: &["device signature = 1E 95 0F", "error: -: cannot be written"],
        status: 1,
    };
    let desk = FailingDesk::new(desk_with(alloc, &[])?, 2);
    let wire = wire_to(alloc, "m328p", Fates::none(alloc))?;
    let over = run_on(alloc, row.words, desk, wire)?;
    shows(&rt, alloc, &row, over.desk.inner(), over.status)?;
    let frames = joined(alloc, &[OPENING, "1B0600060E18045000000059"])?;
    assert!(rt; over.link.sent() == frames.as_slice());
    Ok(())
}
