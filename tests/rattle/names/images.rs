//= avr_image Image Base ListWriter RawReader ImageFault Base::Dec Base::Hex Base::Oct Base::Bin
//= ImageFault::OutOfRange ImageFault::BadNumber ImageFault::TooLarge ImageFault::Failed ImageFault::Memory
//= Image::new Image::put Image::get Image::first_from Image::run_from Image::fill Image::len parse_immediate
//= ListWriter::new ListWriter::next_piece RawReader::new RawReader::feed RawReader::finish ImageFault::number
use arrayvec::ArrayVec;
use avr_image::{Base, Image, ImageFault, ListWriter, RawReader, parse_immediate};
use std::test::Fail;

#[test]
fn images(rt: HostRuntime) -> Result<(), Fail> {
    let made: Result<Image, ImageFault> = Image::new(rt.alloc(), 131_072u32);
    let mut image: Image = made?;
    let put: Result<(), ImageFault> = image.put(131_071u32, 7u8);
    assert!(rt; put.is_ok());
    let got: Option<u8> = image.get(131_071u32);
    assert!(rt; got == Some(7));
    let next: Option<u32> = image.first_from(0u32);
    assert!(rt; next == Some(131_071));
    let end: u32 = image.run_from(131_071u32, 131_072u32);
    assert!(rt; end == 131_072);
    let mut page = [0u8; 4];
    image.fill(131_070u32, &mut page);
    assert!(rt; page == [255, 7, 255, 255]);
    let len: u32 = image.len();
    assert!(rt; len == 1);
    let parsed: Result<Image, ImageFault> = parse_immediate(rt.alloc(), "0x12", 4u32);
    assert!(rt; parsed.is_ok());
    Ok(())
}

#[test]
fn lists_and_raw_files(rt: HostRuntime) -> Result<(), Fail> {
    let mut piece: ArrayVec<u8, 80> = ArrayVec::new();
    for base in [Base::Dec, Base::Hex, Base::Oct, Base::Bin] {
        let mut writer: ListWriter<'_> = ListWriter::new(base, &[]);
        let more: bool = writer.next_piece(&mut piece);
        assert!(rt; more && piece.as_slice() == b"\n".as_slice());
    }
    let reader: Result<RawReader, ImageFault> = RawReader::new(rt.alloc(), 2u32);
    let mut reader = reader?;
    let fed: Result<(), ImageFault> = reader.feed(&[1, 2, 3]);
    assert!(rt; fed == Err(ImageFault::OutOfRange(2)));
    let finished: Result<Image, ImageFault> = reader.finish();
    assert!(rt; finished.is_err());
    Ok(())
}

#[test]
fn numbers(rt: HostRuntime) {
    let faults: [(ImageFault, u8); 5] = [
        (ImageFault::OutOfRange(1), 1),
        (ImageFault::BadNumber(1), 2),
        (ImageFault::TooLarge(1), 3),
        (ImageFault::Failed, 4),
        (ImageFault::Memory, 5),
    ];
    for (fault, number) in faults {
        assert!(rt; fault.number() == number);
    }
}
