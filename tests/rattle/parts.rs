//! What no contract covers: texts, and that calls succeed.
use avr_part::{Chip, Field, Mem, Part, PartFault, Parts, parse_part_file};
use std::alloc::Global;
use std::process::Abort;
use std::test::Fail;

/// The first lines of a part's table.
const HEAD: &str = "[parts.x1]\nsignature = \"1e950F\"\n";

fn built_in(rt: &impl Abort, id: &str) -> Part {
    Parts::none().find(id).expect(rt, "a built-in part")
}

/// Sends these instructions to the chip, and checks the bytes that each one returns.
fn obeys(rt: &impl Abort, chip: &mut Chip, rows: &[([u8; 4], [u8; 4])]) {
    for (bytes, out) in rows {
        assert_eq!(rt; chip.spi(*bytes), *out, "at {bytes:?}");
    }
}

/// Returns the fault of a part file.
fn fault_of(alloc: Global, text: &[u8]) -> Option<PartFault> {
    let refused = parse_part_file(alloc, text).err()?;
    Some(refused.fault())
}

#[test]
fn a_part_file_is_read(rt: HostRuntime) -> Result<(), Fail> {
    let text =
        "title = \"mine\"\n[parts.x1]\nsignature = \"1E950f\"\nflash_size = 32768\nflash_page = 128\n\
        eeprom_size = 1024\neeprom_page = 4\neesave_bit = 3\n\
        [parts.t85]\nsignature = \"000001\"\nflash_size = 2\nflash_page = 2\neeprom_size = 1\neeprom_page = 1\neesave_bit = 0\n";
    let parts = parse_part_file(rt.alloc(), text.as_bytes())?;
    let part = parts.find("x1")?;
    assert_eq!(rt; part.signature(), [0x1E, 0x95, 0x0F]);
    assert_eq!(rt; part.size_of(Mem::Flash), 32_768);
    assert_eq!(rt;
        parts.find("t85")?.size_of(Mem::Flash),
        2,
        "the file's part comes first"
    );
    assert_eq!(rt; parts.find("m328p")?.size_of(Mem::Eeprom), 1024);
    Ok(())
}

#[test]
fn damaged_part_files(rt: HostRuntime) -> Result<(), Fail> {
    let whole = "flash_page = 128\neeprom_size = 1024\neeprom_page = 4\neesave_bit = 3\n";
    for (text, fault) in [
        ("", PartFault::Missing(Field::Parts)),
        ("[part.x1]\n", PartFault::Missing(Field::Parts)),
        ("parts = 3", PartFault::BadValue(Field::Parts)),
        ("parts = [", PartFault::NotToml),
        ("[parts]\nx1 = 1\n", PartFault::BadValue(Field::Parts)),
        ("[[parts.x1]]\n", PartFault::BadValue(Field::Parts)),
        ("[[parts]]\n", PartFault::BadValue(Field::Parts)),
        ("[parts.\"x 1\"]\n", PartFault::BadValue(Field::Id)),
        ("[parts.\"\"]\n", PartFault::BadValue(Field::Id)),
        (
            "[parts.abcdefghijklmnopqrstuvwxyz012345]\n",
            PartFault::BadValue(Field::Id),
        ),
        (
            "[parts.x1]\nflash_size = 0\n",
            PartFault::Missing(Field::Signature),
        ),
        (
            "[parts.x1]\nsignature = \"1E95\"\n",
            PartFault::BadValue(Field::Signature),
        ),
        (
            "[parts.x1]\nsignature = \"1E950\"\n",
            PartFault::BadValue(Field::Signature),
        ),
        (
            "[parts.x1]\nsignature = \"1E95 F\"\n",
            PartFault::BadValue(Field::Signature),
        ),
        (
            "[parts.x1]\nsignature = 19507\n",
            PartFault::BadValue(Field::Signature),
        ),
        (
            "[parts.x1]\nsignature = \"1E950F\"\nsignature = \"1E950F\"\n",
            PartFault::NotToml,
        ),
    ] {
        assert_eq!(rt;
            fault_of(rt.alloc(), text.as_bytes()),
            Some(fault),
            "at {text}"
        );
    }
    for (value, fault) in [
        ("\"32768\"", PartFault::BadValue(Field::FlashSize)),
        ("32768.0", PartFault::BadValue(Field::FlashSize)),
        ("true", PartFault::BadValue(Field::FlashSize)),
        ("-2", PartFault::BadValue(Field::FlashSize)),
        ("1", PartFault::BadValue(Field::FlashSize)),
        ("262145", PartFault::BadValue(Field::FlashSize)),
        ("4294967298", PartFault::BadValue(Field::FlashSize)),
        ("9223372036854775808", PartFault::NotToml),
        ("1000", PartFault::BadSizes),
    ] {
        let text = format!(in rt.alloc(); "{HEAD}flash_size = {value}\n{whole}")?;
        assert_eq!(rt;
            fault_of(rt.alloc(), text.as_str().as_bytes()),
            Some(fault),
            "at {value}"
        );
    }
    for (fields, fault) in [
        (
            "flash_size = 262400\nflash_page = 256\n",
            PartFault::BadValue(Field::FlashSize),
        ),
        ("flash_size = 1000\n", PartFault::Missing(Field::FlashPage)),
        (
            "flash_size = 1000\nflash_page = 1\n",
            PartFault::BadValue(Field::FlashPage),
        ),
        (
            "flash_size = 1000\nflash_page = 100\n",
            PartFault::BadValue(Field::FlashPage),
        ),
        (
            "flash_size = 1000\nflash_page = 512\n",
            PartFault::BadValue(Field::FlashPage),
        ),
        (
            "flash_size = 2\nflash_page = 2\neeprom_size = 4097\n",
            PartFault::BadValue(Field::EepromSize),
        ),
        (
            "flash_size = 2\nflash_page = 2\neeprom_size = 4\n",
            PartFault::Missing(Field::EepromPage),
        ),
        (
            "flash_size = 2\nflash_page = 2\neeprom_size = 4\neeprom_page = 0\n",
            PartFault::BadValue(Field::EepromPage),
        ),
        (
            "flash_size = 2\nflash_page = 2\neeprom_size = 4\neeprom_page = 4\neesave_bit = 8\n",
            PartFault::BadValue(Field::EesaveBit),
        ),
        (
            "flash_size = 2\nflash_page = 2\neeprom_size = 6\neeprom_page = 4\neesave_bit = 7\n",
            PartFault::BadSizes,
        ),
    ] {
        let text = format!(in rt.alloc(); "{HEAD}{fields}")?;
        assert_eq!(rt;
            fault_of(rt.alloc(), text.as_str().as_bytes()),
            Some(fault),
            "at {fields}"
        );
    }
    let no_text: &[u8] = &[b'a', b'=', b'"', 0xFF, b'"'];
    assert_eq!(rt; fault_of(rt.alloc(), no_text), Some(PartFault::NotToml));
    Ok(())
}

/// Returns the line of a part file's fault.
fn line_of(alloc: Global, text: &[u8]) -> Option<usize> {
    let refused = parse_part_file(alloc, text).err()?;
    refused.line()
}

#[test]
fn what_is_no_toml_has_a_line(rt: HostRuntime) {
    let rows: [(&[u8], Option<usize>); 12] = [
        (b"parts = [", Some(1)),
        (b"parts", Some(1)),
        (b"= 3\n", Some(1)),
        (b"title = \"mine\"\n\n[parts\n", Some(3)),
        (
            b"[parts.x1]\nflash_page = 128\neesave_bit 3\n[parts.x2]\n",
            Some(3),
        ),
        (
            b"[parts.x1]\r\nflash_page = 128\r\neesave_bit = \r\n",
            Some(3),
        ),
        (b"a = 1\nb = 2\na = 3\n", Some(3)),
        (b"a = \"\xFF\"\n", Some(1)),
        (b"a = 1\n# one\nb = \"\xC3\xA9\xFF\"\n", Some(3)),
        (b"", None),
        (b"\n\nparts = 3\n", None),
        (b"\n\n[parts.x1]\n", None),
    ];
    for (text, line) in rows {
        assert_eq!(rt; line_of(rt.alloc(), text), line, "at {text:?}");
    }
}

#[test]
fn faults_have_numbers_and_texts(rt: HostRuntime) -> Result<(), Fail> {
    for (fault, number, text) in [
        (PartFault::NotToml, 1, "not TOML"),
        (
            PartFault::Missing(Field::EepromPage),
            2,
            "eeprom_page is missing",
        ),
        (
            PartFault::BadValue(Field::Signature),
            3,
            "signature has a bad value",
        ),
        (PartFault::BadSizes, 4, "sizes do not fit"),
        (PartFault::NoSuchPart, 5, "no part of this id"),
        (
            PartFault::BadChipFile(100),
            6,
            "100 bytes, another number expected",
        ),
        (PartFault::Memory, 7, "out of memory"),
    ] {
        assert_eq!(rt; fault.number(), number);
        let notice = format!(in rt.alloc(); "{fault}")?;
        assert_eq!(rt; notice.as_str(), text);
    }
    Ok(())
}

#[test]
fn a_memory_is_named_in_its_own_spelling_alone(rt: HostRuntime) {
    assert_eq!(rt; Mem::named("efuse"), Some(Mem::Efuse));
    for name in ["", "fuse", "efuses", "Flash"] {
        assert_eq!(rt; Mem::named(name), None, "{name}");
    }
}

#[test]
fn the_longest_id_has_31_bytes(rt: HostRuntime) -> Result<(), Fail> {
    let id = "abcdefghijklmnopqrstuvwxy-_1234";
    let text = format!(in rt.alloc();
        "[parts.{id}]\nsignature = \"1E950F\"\nflash_size = 2\nflash_page = 2\neeprom_size = 1\n\
        eeprom_page = 1\neesave_bit = 0\n"
    )?;
    let parts = parse_part_file(rt.alloc(), text.as_str().as_bytes())?;
    assert_eq!(rt; parts.find(id)?.id(), id);
    Ok(())
}

/// The lock FE has bit 0 clear: EEPROM is neither written nor read until a chip erase.
#[test]
fn a_locked_chip_keeps_its_eeprom(rt: HostRuntime) -> Result<(), Fail> {
    let mut chip = Chip::fresh(rt.alloc(), built_in(&rt, "m328p"))?;
    let rows = [
        ([0xAC, 0xE0, 0, 0xFE], [0, 0xAC, 0xE0, 0]),
        ([0xC0, 0, 0, 0x11], [0, 0xC0, 0, 0]),
        ([0xA0, 0, 0, 0], [0, 0xA0, 0, 0xFF]),
        ([0xAC, 0x80, 0, 0], [0, 0xAC, 0x80, 0]),
        ([0xC0, 0, 0, 0x11], [0, 0xC0, 0, 0]),
        ([0xA0, 0, 0, 0], [0, 0xA0, 0, 0x11]),
    ];
    obeys(&rt, &mut chip, &rows);
    Ok(())
}

#[test]
fn a_chip_obeys(rt: HostRuntime) -> Result<(), Fail> {
    let mut chip = Chip::fresh(rt.alloc(), built_in(&rt, "m328p"))?;
    let rows = [
        ([0xAC, 0x53, 0, 0], [0, 0xAC, 0x53, 0]),
        ([0x30, 0, 1, 0], [0, 0x30, 0, 0x95]),
        ([0x30, 0, 7, 0], [0, 0x30, 0, 0xFF]),
        ([0x38, 0, 0, 0], [0, 0x38, 0, 0xFF]),
        ([0xF0, 0, 1, 0], [0, 0xF0, 0, 0]),
        ([0x40, 0, 0, 0x12], [0, 0x40, 0, 0]),
        ([0x4C, 0, 0, 0], [0, 0x4C, 0, 0]),
        ([0x20, 0, 0, 0], [0, 0x20, 0, 0x12]),
        ([0x28, 0, 0, 0], [0, 0x28, 0, 0xFF]),
        ([0xC1, 0, 1, 0x33], [0, 0xC1, 0, 1]),
        ([0xC2, 0, 0, 0], [0, 0xC2, 0, 0]),
        ([0xA0, 0, 1, 0], [0, 0xA0, 0, 0x33]),
        ([0xA0, 0, 0, 0], [0, 0xA0, 0, 0xFF]),
        ([0xAC, 0xA8, 0, 0xF7], [0, 0xAC, 0xA8, 0]),
        ([0xAC, 0x80, 0, 0], [0, 0xAC, 0x80, 0]),
        ([0xA0, 0, 1, 0], [0, 0xA0, 0, 0x33]),
        ([0xAC, 0xA8, 0, 0xFF], [0, 0xAC, 0xA8, 0]),
        ([0xAC, 0x80, 0, 0], [0, 0xAC, 0x80, 0]),
        ([0xA0, 0, 1, 0], [0, 0xA0, 0, 0xFF]),
        ([0xAC, 0xE0, 0, 0xFC], [0, 0xAC, 0xE0, 0]),
        ([0xAC, 0xE0, 0, 0xFF], [0, 0xAC, 0xE0, 0]),
        ([0x58, 0, 0, 0], [0, 0x58, 0, 0xFC]),
        ([0xC0, 0, 0, 0x11], [0, 0xC0, 0, 0]),
        ([0xA0, 0, 0, 0], [0, 0xA0, 0, 0xFF]),
        ([0xAC, 0x80, 0, 0], [0, 0xAC, 0x80, 0]),
        ([0x58, 0, 0, 0], [0, 0x58, 0, 0xFF]),
        ([0xC0, 0, 0, 0x11], [0, 0xC0, 0, 0]),
        ([0xA0, 0, 0, 0], [0, 0xA0, 0, 0x11]),
    ];
    obeys(&rt, &mut chip, &rows);
    Ok(())
}

#[test]
fn the_second_half_of_a_large_flash(rt: HostRuntime) -> Result<(), Fail> {
    let mut chip = Chip::fresh(rt.alloc(), built_in(&rt, "m2560"))?;
    let rows = [
        ([0x4D, 0, 1, 0], [0, 0x4D, 0, 1]),
        ([0x40, 0, 0, 0x55], [0, 0x40, 0, 0]),
        ([0x4C, 0, 0, 0], [0, 0x4C, 0, 0]),
        ([0x20, 0, 0, 0], [0, 0x20, 0, 0x55]),
        ([0xAC, 0x53, 0, 0], [0, 0xAC, 0x53, 0]),
        ([0x20, 0, 0, 0], [0, 0x20, 0, 0xFF]),
    ];
    obeys(&rt, &mut chip, &rows);
    assert_eq!(rt; chip.byte(Mem::Flash, 0x2_0000), Some(0x55));
    assert_eq!(rt; chip.byte(Mem::Flash, 0), Some(0xFF));
    assert_eq!(rt; chip.byte(Mem::Flash, 0x4_0000), None);
    Ok(())
}

/// Returns the chip file of an ATmega328P after writes of a byte of EEPROM, the low fuse and the lock bits.
fn written_chip(rt: &impl Abort, alloc: Global) -> Result<Vec<u8>, PartFault> {
    let mut chip = Chip::fresh(alloc, built_in(rt, "m328p"))?;
    let rows = [
        ([0xC0, 0, 2, 0x33], [0, 0xC0, 0, 2]),
        ([0xAC, 0xA0, 0, 0x62], [0, 0xAC, 0xA0, 0]),
        ([0xAC, 0xE0, 0, 0xFC], [0, 0xAC, 0xE0, 0]),
    ];
    obeys(rt, &mut chip, &rows);
    chip.to_bytes()
}

/// Reads an ATmega328P from this chip file.
fn chip_of(rt: &impl Abort, alloc: Global, file: &[u8]) -> Result<Chip, PartFault> {
    Chip::from_bytes(alloc, built_in(rt, "m328p"), file)
}

#[test]
fn a_chip_is_written_to_its_file(rt: HostRuntime) -> Result<(), Fail> {
    let file = written_chip(&rt, rt.alloc())?;
    let file = file.as_slice();
    assert_eq!(rt; file.len(), 33_796);
    assert_eq!(rt; file.get(32_770).copied(), Some(0x33));
    assert!(rt; file.ends_with(&[0x62, 0xFF, 0xFF, 0xFC]));
    Ok(())
}

#[test]
fn a_chip_is_read_from_its_file(rt: HostRuntime) -> Result<(), Fail> {
    let file = written_chip(&rt, rt.alloc())?;
    let chip = chip_of(&rt, rt.alloc(), file.as_slice())?;
    assert_eq!(rt; chip.part().id(), "m328p");
    assert_eq!(rt; chip.byte(Mem::Eeprom, 2), Some(0x33));
    assert_eq!(rt; chip.byte(Mem::Lfuse, 0), Some(0x62));
    assert_eq!(rt; chip.byte(Mem::Lock, 1), None);
    Ok(())
}

#[test]
fn a_short_chip_file_is_no_chip(rt: HostRuntime) {
    let fault = chip_of(&rt, rt.alloc(), &[0xFF; 100]).err();
    assert_eq!(rt; fault, Some(PartFault::BadChipFile(100)));
}

#[test]
fn faults_are_told_apart(rt: HostRuntime) -> Result<(), Fail> {
    let refused = parse_part_file(rt.alloc(), b"[parts.x1]");
    assert!(rt; refused.is_err());
    if let Err(fault) = &refused {
        assert_eq!(rt; fault.part(), Some("x1"));
        assert_eq!(rt; fault.fault(), PartFault::Missing(Field::Signature));
        let shown = format!(in rt.alloc(); "{fault}")?;
        assert_eq!(rt; shown.as_str(), "part x1: signature is missing");
    }
    if let Err(fault) = parse_part_file(rt.alloc(), b"parts = 3") {
        assert_eq!(rt; fault.part(), None);
        assert_eq!(rt; fault.fault(), PartFault::BadValue(Field::Parts));
    }
    if let Err(fault) = parse_part_file(rt.alloc(), b"a = 1\na = 2\n") {
        assert_eq!(rt; fault.line(), Some(2));
        assert_eq!(rt; fault.fault(), PartFault::NotToml);
    }
    assert_eq!(rt; PartFault::Missing(Field::Signature).number(), 2);
    assert_eq!(rt; Field::FlashSize.name(), "flash_size");
    assert_eq!(rt; Field::Id.name(), "id");
    let shown = format!(in rt.alloc(); "{} {}", Mem::Hfuse, Field::Id)?;
    assert_eq!(rt; shown.as_str(), "hfuse id");
    Ok(())
}
