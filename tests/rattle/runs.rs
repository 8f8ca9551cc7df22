//! Worked runs: what is sent, what is printed, and the status. The frames are those of AVR068 (STK500 protocol,
//! version 2), written out by hand.
use avr_plan::{Settings, read_settings, read_words};
use avr_desk::{Desk, FailingDesk, MemDesk};
use avr_tool::run;
use std::alloc::Global;
use std::ops::Range;
use std::process::Abort;
use std::test::Fail;
use stk_host::{FailingLink, Item, Link, TapeLink};
use crate::data::digits::{REPLIES, LEAVE, OPENING};

/// A run: the part, the replies in hexadecimal (`-` is a timeout), the frames in hexadecimal, the messages and the
/// status.
struct Row {
    part: &'static str,
    replies: &'static str,
    frames: &'static [&'static str],
    messages: &'static str,
    status: u8,
}

fn settings_for(alloc: Global, part: &str) -> Result<Settings, Fail> {
    let mut words: Vec<String> = Vec::new(alloc);
    for word in ["avrstk", "-P", "stdio:", "-p", part] {
        words.push(String::from_str(alloc, word)?)?;
    }
    let matches = read_words(alloc, words.as_slice())?;
    Ok(read_settings(alloc, &matches)?)
}

/// Parses a tape: pairs of hexadecimal digits, and `-` for a timeout.
fn tape(alloc: Global, text: &str) -> Result<Vec<Item>, Fail> {
    let mut items = Vec::new(alloc);
    for (n, digits) in text.split('-').enumerate() {
        if n > 0 {
            items.push(Item::Silence)?;
        }
        for byte in hex::decode(alloc, digits)? {
            items.push(Item::Byte(byte))?;
        }
    }
    Ok(items)
}

/// Decodes and joins several frames in hexadecimal.
fn joined(alloc: Global, frames: &[&str]) -> Result<Vec<u8>, Fail> {
    let mut bytes = Vec::new(alloc);
    for digits in frames {
        bytes.extend_from_slice(hex::decode(alloc, *digits)?.as_slice())?;
    }
    Ok(bytes)
}

/// A run that has ended.
#[derive(Drop)]
struct Over {
    desk: MemDesk,
    link: TapeLink,
    status: u8,
}

/// Runs at this desk and over this link. Returns the status.
fn status_of<D: Desk, L: Link>(
    alloc: Global,
    settings: &Settings,
    desk: &mut D,
    link: &mut L,
) -> u8 {
    run(alloc, settings, desk, link)
}

/// Runs over a tape that is received in pieces of at most `cut` bytes.
fn run_over(alloc: Global, part: &str, items: Vec<Item>, cut: usize) -> Result<Over, Fail> {
    let settings = settings_for(alloc, part)?;
    let mut desk = MemDesk::empty(alloc);
    let mut link = TapeLink::new(alloc, items, cut.max(1));
    let status = status_of(alloc, &settings, &mut desk, &mut link);
    Ok(Over { desk, link, status })
}

/// Checks what a run sent and printed, and its status.
fn shows(
    rt: &impl Abort,
    over: &Over,
    sent: &[u8],
    messages: &str,
    status: u8,
) -> Result<(), Fail> {
    assert!(rt; over.desk.messages() == messages.as_bytes(), "{messages}");
    assert!(rt; over.link.sent() == sent, "{messages}");
    assert!(rt; over.status == status, "{messages}");
    Ok(())
}

fn look(rt: &impl Abort, alloc: Global, row: &Row, cut: usize) -> Result<(), Fail> {
    let sent = joined(alloc, row.frames)?;
    let over = run_over(alloc, row.part, tape(alloc, row.replies)?, cut)?;
    shows(rt, &over, sent.as_slice(), row.messages, row.status)
}

fn look_at_all(rt: &impl Abort, alloc: Global, rows: &[Row]) -> Result<(), Fail> {
    for row in rows {
        for cut in [1usize, 2, 3, 5, 280, 281] {
            look(rt, alloc, row, cut)?;
        }
    }
    Ok(())
}

#[test]
fn signatures(rt: HostRuntime) -> Result<(), Fail> {
    look_at_all(
        &rt,
        rt.alloc(),
        &[
            Row {
                part: "m328p",
                replies: REPLIES,
                frames: &[OPENING, LEAVE],
                messages: "avrstk: device signature = 1E 95 0F\navrstk: done\n",
                status: 0,
            },
            Row {
                part: "t85",
                replies: "1B01000B0E01000853544B3530305F32021B0200020E1000051B0300040E1B001E00171B0400040E1B0093009D1B0500040E1B000B00041B0600020E110000",
                frames: &[OPENING, LEAVE],
                messages: "avrstk: device signature = 1E 93 0B\navrstk: done\n",
                status: 0,
            },
            Row {
                part: "m328p",
                replies: "1B01000B0E01000853544B3530305F32021B0200020E1000051B0300040E1B001E00171B0400040E1B0095009B1B0500040E1B0014001B1B0600020E110000",
                frames: &[OPENING, LEAVE],
                messages: "avrstk: device signature = 1E 95 14\navrstk: error: signature is 1E 95 14, m328p has 1E 95 0F\n",
                status: 1,
            },
            Row {
                part: "m9",
                replies: REPLIES,
                frames: &[],
                messages: "avrstk: error: no part m9\n",
                status: 1,
            },
        ],
    )
}

#[test]
fn replies_that_do_not_come(rt: HostRuntime) -> Result<(), Fail> {
    look_at_all(
        &rt,
        rt.alloc(),
        &[
            Row {
                part: "m328p",
                replies: "--------",
                frames: &[
                    "1B0100010E01141B0200010E01171B0300010E01161B0400010E0111",
                    "1B0500030E110101021B0600030E110101011B0700030E110101001B0800030E1101010F",
                ],
                messages: "avrstk: error: no answer\n",
                status: 1,
            },
            // the tape ends when the reply to LEAVE is due
            Row {
                part: "m328p",
                replies: "1B01000B0E01000853544B3530305F32021B0200020E1000051B0300040E1B001E00171B0400040E1B0095009B1B0500040E1B000F0000",
                frames: &[OPENING, LEAVE],
                messages: "avrstk: device signature = 1E 95 0F\navrstk: error: link ended\n",
                status: 1,
            },
            Row {
                part: "m328p",
                replies: "1B01000B0E01000853544B3530305F3202",
                frames: &["1B0100010E01141B02000C0E10C8641920005303AC53000031"],
                messages: "avrstk: error: link ended\n",
                status: 1,
            },
        ],
    )
}

#[test]
fn commands_that_are_refused(rt: HostRuntime) -> Result<(), Fail> {
    look_at_all(
        &rt,
        rt.alloc(),
        &[
            Row {
                part: "m328p",
                replies: "1B01000B0E01000853544B3530305F32021B0200020E10C0C5",
                frames: &[
                    "1B0100010E01141B02000C0E10C8641920005303AC53000031",
                    "1B0300030E11010104",
                ],
                messages: "avrstk: error: command 10 refused with status C0\n",
                status: 1,
            },
            Row {
                part: "m328p",
                replies: "1B01000B0E01000853544B3530305F32021B0200020EB0C1641B0300020EB0C1651B0400020EB0C1621B0500020EB0C163",
                frames: &[
                    "1B0100010E01141B02000C0E10C8641920005303AC53000031",
                    "1B03000C0E10C8641920005303AC530000301B04000C0E10C8641920005303AC53000037",
                    "1B05000C0E10C8641920005303AC530000361B0600030E11010101",
                ],
                messages: "avrstk: error: command 10 refused with status C1\n",
                status: 1,
            },
            Row {
                part: "m328p",
                replies: "1B01000B0E01000853544B3530305F32021B0200020E110004",
                frames: &[
                    "1B0100010E01141B02000C0E10C8641920005303AC53000031",
                    "1B0300030E11010104",
                ],
                messages: "avrstk: error: command 10: bad answer\n",
                status: 1,
            },
        ],
    )
}

/// Returns a tape of the first bytes of the good replies; then the link ends.
fn prefix_of_replies(alloc: Global, count: usize) -> Result<Vec<Item>, Fail> {
    let mut items = Vec::new(alloc);
    for byte in hex::decode(alloc, REPLIES)?.into_iter().take(count) {
        items.push(Item::Byte(byte))?;
    }
    Ok(items)
}

/// Checks runs over replies that are cut off after each of these counts of bytes: the first `sent` bytes of the good
/// run are sent.
fn look_at_cuts(
    rt: &impl Abort,
    alloc: Global,
    counts: Range<usize>,
    sent: usize,
    messages: &str,
) -> Result<(), Fail> {
    let mut frames = joined(alloc, &[OPENING, LEAVE])?;
    frames.truncate(sent);
    for count in counts {
        for cut in [1usize, 281] {
            let over = run_over(alloc, "m328p", prefix_of_replies(alloc, count)?, cut)?;
            shows(rt, &over, frames.as_slice(), messages, 1)?;
        }
    }
    Ok(())
}

/// Each complete reply lets the next frame be sent: after 17, 25, 35, 45 and 55 bytes.
#[test]
fn replies_that_break_off(rt: HostRuntime) -> Result<(), Fail> {
    let alloc = rt.alloc();
    let ended = "avrstk: error: link ended\n";
    look_at_cuts(&rt, alloc, 0..17, 7, ended)?;
    look_at_cuts(&rt, alloc, 17..25, 25, ended)?;
    look_at_cuts(&rt, alloc, 25..35, 37, ended)?;
    look_at_cuts(&rt, alloc, 35..45, 49, ended)?;
    look_at_cuts(&rt, alloc, 45..55, 61, ended)?;
    look_at_cuts(
        &rt,
        alloc,
        55..63,
        70,
        "avrstk: device signature = 1E 95 0F\navrstk: error: link ended\n",
    )
}

/// Returns a tape of 5,000 start bytes, a timeout, a reply and the end.
fn rubbish(alloc: Global) -> Result<Vec<Item>, Fail> {
    let mut items = Vec::new(alloc);
    for _ in 0..5_000 {
        items.push(Item::Byte(0x1B))?;
    }
    for item in tape(alloc, "-1B03000B0E01000853544B3530305F3200")? {
        items.push(item)?;
    }
    Ok(items)
}

/// The first attempt reads 4,096 of the start bytes, and the second one the other 904.
#[test]
fn rubbish_on_the_line(rt: HostRuntime) -> Result<(), Fail> {
    let sent = joined(
        rt.alloc(),
        &[
            "1B0100010E01141B0200010E01171B0300010E0116",
            "1B04000C0E10C8641920005303AC53000037",
        ],
    )?;
    for cut in [1usize, 2, 3, 5, 280, 281] {
        let over = run_over(rt.alloc(), "m328p", rubbish(rt.alloc())?, cut)?;
        shows(&rt, &over, sent.as_slice(), "avrstk: error: link ended\n", 1)?;
    }
    Ok(())
}

#[test]
fn a_link_that_fails(rt: HostRuntime) -> Result<(), Fail> {
    let alloc = rt.alloc();
    let items = tape(alloc, REPLIES)?;
    let settings = settings_for(alloc, "m328p")?;
    let mut desk = MemDesk::empty(alloc);
    let mut link = FailingLink::new(TapeLink::new(alloc, items, 281), 1, 281);
    assert!(rt; status_of(alloc, &settings, &mut desk, &mut link) == 1);
    assert!(rt; desk.messages() == b"avrstk: error: link cannot be written\n".as_slice());
    Ok(())
}

/// If the desk fails, nothing is printed and no LEAVE is sent.
#[test]
fn a_desk_that_fails(rt: HostRuntime) -> Result<(), Fail> {
    let alloc = rt.alloc();
    let opening = joined(alloc, &[OPENING])?;
    let items = tape(alloc, REPLIES)?;
    let settings = settings_for(alloc, "m328p")?;
    let mut desk = FailingDesk::new(MemDesk::empty(alloc), 1);
    let mut link = TapeLink::new(alloc, items, 281);
    assert!(rt; status_of(alloc, &settings, &mut desk, &mut link) == 1);
    assert!(rt; link.sent() == opening.as_slice());
    assert!(rt; desk.inner().messages() == b"".as_slice());
    Ok(())
}

#[test]
fn the_digits_are_of_the_same_bytes(rt: HostRuntime) -> Result<(), Fail> {
    let alloc = rt.alloc();
    assert!(rt; joined(alloc, &[OPENING, LEAVE])?.as_slice() == crate::data::FRAMES.as_slice());
    assert!(rt; joined(alloc, &[REPLIES])?.as_slice() == crate::data::REPLIES.as_slice());
    Ok(())
}
