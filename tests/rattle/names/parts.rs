//= avr_part Parts Part Mem Chip PartFault Field Mem::Flash Mem::Eeprom Mem::Lfuse Mem::Hfuse Mem::Efuse Mem::Lock
//= Mem::Signature Mem::Calibration PartFault::NotToml PartFault::Missing PartFault::BadValue PartFault::BadSizes
//= PartFault::NoSuchPart PartFault::BadChipFile PartFault::Memory Parts::none Parts::find parse_parts Mem::name
//= Mem::writable Part::size_of Part::page_of Chip::fresh Chip::spi Chip::byte Chip::from_bytes Chip::part
//= PartFault::number Chip::to_bytes
use avr_part::{Chip, Field, Mem, Part, PartFault, Parts, parse_parts};
use std::test::Fail;

#[test]
fn parts(rt: HostRuntime) -> Result<(), Fail> {
    let parts: Parts = Parts::none();
    let part: Result<Part, PartFault> = parts.find("m328p");
    let part: Part = part?;
    assert!(rt; part.id() == "m328p" && part.signature() == [0x1E, 0x95, 0x0F]);
    assert!(rt; part.eesave_bit() == 3);
    let read: Result<Parts, PartFault> = parse_parts(rt.alloc(), b"");
    assert!(rt; read.err() == Some(PartFault::Missing(Field::Parts)));
    let memories: [(Mem, &str, bool, u32, u32); 8] = [
        (Mem::Flash, "flash", true, 32_768, 128),
        (Mem::Eeprom, "eeprom", true, 1_024, 4),
        (Mem::Lfuse, "lfuse", true, 1, 1),
        (Mem::Hfuse, "hfuse", true, 1, 1),
        (Mem::Efuse, "efuse", true, 1, 1),
        (Mem::Lock, "lock", true, 1, 1),
        (Mem::Signature, "signature", false, 3, 1),
        (Mem::Calibration, "calibration", false, 1, 1),
    ];
    for (mem, name, writable, size, page) in memories {
        assert!(rt; mem.name() == name && mem.writable() == writable);
        assert!(rt; part.size_of(mem) == size && part.page_of(mem) == page, "{name}");
    }
    Ok(())
}

#[test]
fn chips(rt: HostRuntime) -> Result<(), Fail> {
    let alloc = rt.alloc();
    let chip: Result<Chip, PartFault> = Chip::fresh(alloc, Parts::none().find("m328p")?);
    let mut chip: Chip = chip?;
    let out: [u8; 4] = chip.spi([0x30, 0, 1, 0]);
    assert!(rt; out == [0, 0x30, 0, 0x95]);
    let byte: Option<u8> = chip.byte(Mem::Flash, 0);
    assert!(rt; byte == Some(0xFF));
    let of: &Part = chip.part();
    assert!(rt; of.id() == "m328p");
    let saved = chip.to_bytes()?;
    assert!(rt; saved.len() == 33_796);
    let read: Result<Chip, PartFault> =
        Chip::from_bytes(alloc, Parts::none().find("m328p")?, &[0; 100]);
    assert!(rt; read.err() == Some(PartFault::BadChipFile(100)));
    Ok(())
}

#[test]
fn numbers(rt: HostRuntime) {
    let faults: [(PartFault, u8); 7] = [
        (PartFault::NotToml, 1),
        (PartFault::Missing(Field::Parts), 2),
        (PartFault::BadValue(Field::Id), 3),
        (PartFault::BadSizes, 4),
        (PartFault::NoSuchPart, 5),
        (PartFault::BadChipFile(100), 6),
        (PartFault::Memory, 7),
    ];
    for (fault, number) in faults {
        assert!(rt; fault.number() == number);
    }
}
