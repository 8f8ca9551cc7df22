//! The frames of a whole session with an ATmega328P, and what no contract covers.
ghost use Rattle.std.specs.Prelude.{◌≤◌, length};

use arrayvec::ArrayVec;
use std::test::Fail;
use stk_frame::{
    Answer, Command, Event, FrameFault, FrameReader, command_name, put_frame, status_name,
};
use crate::data::REPLIES;

#[test]
fn a_command_goes_into_a_frame(rt: HostRuntime) {
    let mut body = ArrayVec::new();
    Command::read_signature(1).body(&mut body);
    let mut carried = ArrayVec::new();
    put_frame(4, body.as_slice(), &mut carried);
    let mut frame = ArrayVec::new();
    Command::read_signature(1).put_frame(4, &mut frame);
    assert_eq!(rt; carried.as_slice(), frame.as_slice());
    assert_eq!(rt;
        frame.as_slice(),
        [
            0x1B, 0x04, 0x00, 0x06, 0x0E, 0x1B, 0x04, 0x30, 0x00, 0x01, 0x00, 0x39
        ]
        .as_slice()
    );
}

#[test]
fn replies_are_cut_alike_in_pieces_of_any_size(rt: HostRuntime) {
    for size in 1..64usize {
        let mut reader = FrameReader::new();
        let mut frames = 0u8;
        for piece in REPLIES.chunks(size) {
            let mut left = piece;
            for _ in 0..64 {
                let (used, event) = reader.feed(left);
                left = &left[used..];
                if event == Event::More {
                    break;
                }
                assert_eq!(rt; event, Event::Frame);
                frames = frames.wrapping_add(1);
                assert_eq!(rt; reader.seq(), frames, "in pieces of {size}");
            }
        }
        assert_eq!(rt; frames, 6, "in pieces of {size}");
        assert_eq!(rt; reader.body(), [0x11, 0x00].as_slice());
    }
}

#[test]
fn replies_are_checked(rt: HostRuntime) -> Result<(), Fail> {
    let reply = Answer::read(&Command::read_signature(0), &[0x1B, 0x00, 0x1E, 0x00])?;
    assert_eq!(rt; reply.data, [0x1E].as_slice());
    Ok(())
}

#[test]
fn faults_have_numbers_and_texts(rt: HostRuntime) -> Result<(), Fail> {
    for (fault, number, text) in [
        (FrameFault::WrongLength, 1, "an answer of another length"),
        (FrameFault::WrongCommand, 2, "an answer to another command"),
        (FrameFault::CheckSum, 3, "a frame that came spoiled"),
        (FrameFault::Status(0xC0), 4, "status C0"),
    ] {
        assert_eq!(rt; fault.number(), number);
        assert_eq!(rt; format!(in rt.alloc(); "{fault}")?.as_str(), text);
    }
    Ok(())
}

/// Returns whether the body of this frame is read as a command, and the command makes the same frame again.
fn is_read_and_made(frame: &[u8]) -> bool
    requires { 8 ≤ length frame.now }
{
    let Some(command) = Command::read(&frame[5..frame.len() - 1]) else {
        return false;
    };
    let mut again = ArrayVec::new();
    command.put_frame(frame[1], &mut again);
    again.as_slice() == frame
}

#[test]
fn frames_are_read_and_made(rt: HostRuntime) {
    for frame in [
        [0x1B, 0x03, 0x00, 0x03, 0x0E, 0x02, 0x98, 0x05, 0x8A].as_slice(),
        [0x1B, 0x04, 0x00, 0x02, 0x0E, 0x03, 0x98, 0x88].as_slice(),
        [0x1B, 0x09, 0x00, 0x05, 0x0E, 0x06, 0x00, 0x00, 0x00, 0x40, 0x5F].as_slice(),
        [0x1B, 0x06, 0x00, 0x07, 0x0E, 0x12, 0x09, 0x00, 0xAC, 0x80, 0x00, 0x00, 0x23].as_slice(),
        [0x1B, 0x06, 0x00, 0x05, 0x0E, 0x17, 0xAC, 0xA0, 0x00, 0xE2, 0xEF].as_slice(),
        [
            0x1B, 0x07, 0x00, 0x0B, 0x0E, 0x15, 0x00, 0x01, 0xC1, 0x0A, 0xC1, 0xC2, 0xA0, 0xFF, 0xFF, 0x11,
            0x74,
        ]
        .as_slice(),
        [
            0x1B, 0x09, 0x00, 0x0B, 0x0E, 0x15, 0x00, 0x01, 0xC1, 0x0A, 0xC1, 0xC2, 0xA0, 0xFF, 0xFF, 0x33,
            0x58,
        ]
        .as_slice(),
    ] {
        assert!(rt; is_read_and_made(frame));
    }
}

#[test]
fn a_bad_header_hides_a_start_byte(rt: HostRuntime) {
    let mut reader = FrameReader::new();
    assert_eq!(rt; reader.feed(&[0x07, 0x1B, 0x01, 0x00, 0x1B, 0x01]), (6, Event::More));
    assert_eq!(rt;
        reader.feed(&[0x1B, 0x01, 0x00, 0x01, 0x0E, 0x01, 0x14, 0x1B]),
        (7, Event::Frame)
    );
    assert_eq!(rt; reader.body(), [0x01].as_slice());
}

#[test]
fn a_program_command_is_read_with_its_data(rt: HostRuntime) {
    let body = [
        0x13, 0x00, 0x02, 0xC1, 0x0A, 0x40, 0x4C, 0x20, 0xFF, 0xFF, 0x12, 0x34, 0x56,
    ];
    match Command::read(&body) {
        Some(Command::ProgramFlash(block)) => {
            assert_eq!(rt; block.count, 2);
            assert_eq!(rt; block.bytes.bytes(), [0x12, 0x34, 0x56].as_slice());
        }
        _ => assert!(rt; false),
    }
}

#[test]
fn bytes_have_names(rt: HostRuntime) {
    assert_eq!(rt; command_name(0x10), Some("CMD_ENTER_PROGMODE_ISP"));
    assert_eq!(rt; status_name(0x82), Some("STATUS_SET_PARAM_MISSING"));
    assert_eq!(rt; command_name(0x00), None);
}
