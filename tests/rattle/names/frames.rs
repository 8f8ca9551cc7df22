//= stk_frame FrameReader Event Command Answer FrameFault Event::More Event::Frame Event::Spoiled Command::SignOn
//= Command::SetParameter Command::GetParameter Command::LoadAddress Command::EnterProgmode Command::LeaveProgmode
//= Command::ChipErase Command::ProgramFlash Command::ReadFlash Command::ProgramEeprom Command::ReadEeprom
//= Command::ProgramFuse Command::ReadFuse Command::ProgramLock Command::ReadLock Command::ReadSignature
//= Command::ReadOsccal Command::SpiMulti FrameFault::WrongLength FrameFault::WrongCommand FrameFault::CheckSum
//= FrameFault::Status put_frame FrameReader::new FrameReader::feed FrameReader::seq FrameReader::body
//= FrameReader::reset Command::code Command::body Command::read Answer::read FrameFault::number
use arrayvec::ArrayVec;
use std::test::Fail;
use stk_frame::{Answer, Command, Event, FrameFault, FrameReader, put_frame};

#[test]
fn frames(rt: HostRuntime) {
    let mut out: ArrayVec<u8, 281> = ArrayVec::new();
    put_frame(1u8, &[0x01], &mut out);
    let mut reader: FrameReader = FrameReader::new();
    let fed: (usize, Event) = reader.feed(out.as_slice());
    assert!(rt; fed == (7, Event::Frame));
    let seq: u8 = reader.seq();
    let body: &[u8] = reader.body();
    assert!(rt; seq == 1 && body == [0x01].as_slice());
    reader.reset();
    assert!(rt; reader.feed(&[0x1B]) == (1, Event::More) && Event::Spoiled != Event::More);
}

#[test]
fn commands(rt: HostRuntime) -> Result<(), Fail> {
    let command: Option<Command<'_>> = Command::read(&[0x01]);
    assert!(rt; command.is_some());
    let mut body: ArrayVec<u8, 275> = ArrayVec::new();
    Command::SignOn.body(&mut body);
    let code: u8 = Command::SignOn.code();
    assert!(rt; code == 0x01 && body.as_slice() == [0x01].as_slice());
    let good = [0x01, 0x00, 0x01, 0x41];
    let answer: Result<Answer<'_>, FrameFault> = Answer::read(&Command::SignOn, &good);
    let answer = answer?;
    let data: &[u8] = answer.data;
    assert!(rt; data.len() == 1);
    Ok(())
}

/// Returns the command's byte by AVR068; each command has a variant.
fn byte_of(command: &Command<'_>) -> u8 {
    match command {
        Command::SignOn => 0x01,
        Command::SetParameter { .. } => 0x02,
        Command::GetParameter { .. } => 0x03,
        Command::LoadAddress { .. } => 0x06,
        Command::EnterProgmode(_) => 0x10,
        Command::LeaveProgmode { .. } => 0x11,
        Command::ChipErase { .. } => 0x12,
        Command::ProgramFlash(_) => 0x13,
        Command::ReadFlash(_) => 0x14,
        Command::ProgramEeprom(_) => 0x15,
        Command::ReadEeprom(_) => 0x16,
        Command::ProgramFuse { .. } => 0x17,
        Command::ReadFuse(_) => 0x18,
        Command::ProgramLock { .. } => 0x19,
        Command::ReadLock(_) => 0x1A,
        Command::ReadSignature(_) => 0x1B,
        Command::ReadOsccal(_) => 0x1C,
        Command::SpiMulti { .. } => 0x1D,
    }
}

#[test]
fn numbers(rt: HostRuntime) {
    assert!(rt; byte_of(&Command::SignOn) == Command::SignOn.code());
    let faults: [(FrameFault, u8); 4] = [
        (FrameFault::WrongLength, 1),
        (FrameFault::WrongCommand, 2),
        (FrameFault::CheckSum, 3),
        (FrameFault::Status(0xC0), 4),
    ];
    for (fault, number) in faults {
        assert!(rt; fault.number() == number);
    }
}
