//! A plain reader of record files: it reads a whole text into a list of addresses and bytes.

use avr_image::Image;
use avr_records::{Ending, Kind, RecordFault};
use std::alloc::{AllocError, Global};

/// What the lines read so far hold.
#[derive(Drop)]
pub(super) struct Slow {
    size: u64,
    base: u64,
    wraps: bool,
    records: u64,
    ending: Ending,
    fault: Option<RecordFault>,
    /// In the order of the file; a later byte replaces an earlier one.
    bytes: Vec<(u64, u8)>,
}

/// Reads a whole file.
pub(super) fn slow_read(
    alloc: Global,
    kind: Kind,
    size: u32,
    text: &[u8],
) -> Result<Slow, AllocError> {
    let mut file = Slow {
        size: u64::from(size),
        base: 0,
        wraps: false,
        records: 0,
        ending: Ending::NoEnd,
        fault: None,
        bytes: Vec::new(alloc),
    };
    let mut number = 1u32;
    for line in text.split(|c| *c == b'\n') {
        if file.fault.is_none() && file.ending == Ending::NoEnd {
            file.fault = file.read_line(alloc, kind, number, line)?;
        }
        number = number.wrapping_add(1);
    }
    Ok(file)
}

/// Removes the spaces, tabs and carriage returns at the end of a line.
fn trimmed(line: &[u8]) -> &[u8] {
    let mut end = 0;
    for (i, c) in line.iter().enumerate() {
        if !matches!(*c, b' ' | b'\t' | b'\r') {
            end = i + 1;
        }
    }
    line.get(..end).unwrap_or(line)
}

/// Returns the value of a hexadecimal digit.
fn digit(c: u8) -> Option<u8> {
    match c {
        b'0'..=b'9' => Some(c - b'0'),
        b'a'..=b'f' => Some(c - b'a' + 10),
        b'A'..=b'F' => Some(c - b'A' + 10),
        _ => None,
    }
}

/// Returns the number that these bytes form, the highest first.
fn number_of(bytes: &[u8]) -> u64 {
    bytes.iter().fold(
        0u64,
        |n, byte| n.wrapping_mul(256).wrapping_add(u64::from(*byte)),
    )
}

impl Slow {
    /// Returns whether another reader returned the same.
    pub(super) fn is_same(&self, outcome: &Result<(Image, Ending), RecordFault>) -> bool {
        match (outcome, self.fault) {
            (Ok((image, ending)), None) => *ending == self.ending && self.is_image(image),
            (Err(fault), Some(want)) => *fault == want,
            _ => false,
        }
    }

    /// Returns whether an image has these bytes and no others.
    fn is_image(&self, image: &Image) -> bool {
        for addr in 0..image.size() {
            let mut want = None;
            for place in &self.bytes {
                if place.0 == u64::from(addr) {
                    want = Some(place.1);
                }
            }
            if image.get(addr) != want {
                return false;
            }
        }
        true
    }

    fn read_line(
        &mut self,
        alloc: Global,
        kind: Kind,
        number: u32,
        line: &[u8],
    ) -> Result<Option<RecordFault>, AllocError> {
        if line.len() > 600 {
            return Ok(Some(RecordFault::LineTooLong(number)));
        }
        let line = trimmed(line);
        let (mark, digits) = match (kind, line) {
            (_, []) => return Ok(None),
            (Kind::Ihex, [b':', digits @ ..]) => (b':', digits),
            (Kind::Srec, [b'S', mark, digits @ ..]) if mark.is_ascii_digit() => (*mark, digits),
            _ => return Ok(Some(RecordFault::BadMark(number))),
        };
        let mut bytes = Vec::new(alloc);
        let mut high = None;
        for c in digits {
            let Some(value) = digit(*c) else {
                return Ok(Some(RecordFault::BadDigit(number)));
            };
            high = match high {
                None => Some(value),
                Some(first) => {
                    bytes.push(value.wrapping_add(first.wrapping_mul(16)))?;
                    None
                }
            };
        }
        if high.is_some() {
            return Ok(Some(RecordFault::BadLength(number)));
        }
        match kind {
            Kind::Ihex => self.read_ihex(number, bytes.as_slice()),
            Kind::Srec => self.read_srec(number, mark, bytes.as_slice()),
        }
    }

    fn read_ihex(&mut self, number: u32, bytes: &[u8]) -> Result<Option<RecordFault>, AllocError> {
        let [size, high, low, kind, data @ .., _] = bytes else {
            return Ok(Some(RecordFault::BadLength(number)));
        };
        if data.len() != *size as usize {
            return Ok(Some(RecordFault::BadLength(number)));
        }
        if low_sum(bytes) != 0 {
            return Ok(Some(RecordFault::BadSum(number)));
        }
        match (*kind, data) {
            (0, data) => return self.lay(number, number_of(&[*high, *low]), data),
            (1, []) => self.ending = Ending::Ended,
            (2, [_, _]) => {
                self.base = number_of(data).wrapping_mul(16);
                self.wraps = true;
            }
            (4, [_, _]) => {
                self.base = number_of(data).wrapping_mul(65_536);
                self.wraps = false;
            }
            (3 | 5, [_, _, _, _]) => {}
            (1..=5, _) => return Ok(Some(RecordFault::BadLength(number))),
            _ => return Ok(Some(RecordFault::BadType(number))),
        }
        Ok(None)
    }

    fn read_srec(
        &mut self,
        number: u32,
        mark: u8,
        bytes: &[u8],
    ) -> Result<Option<RecordFault>, AllocError> {
        let [count, data @ .., _] = bytes else {
            return Ok(Some(RecordFault::BadLength(number)));
        };
        if data.len() + 1 != *count as usize {
            return Ok(Some(RecordFault::BadLength(number)));
        }
        if low_sum(bytes) != 255 {
            return Ok(Some(RecordFault::BadSum(number)));
        }
        match (mark, data) {
            (b'0', [_, _, ..]) => {}
            (b'1', [a, b, data @ ..]) => return self.lay(number, number_of(&[*a, *b]), data),
            (b'2', [a, b, c, data @ ..]) => {
                return self.lay(number, number_of(&[*a, *b, *c]), data);
            }
            (b'3', [a, b, c, d, data @ ..]) => {
                return self.lay(number, number_of(&[*a, *b, *c, *d]), data);
            }
            (b'5', [_, _]) | (b'6', [_, _, _]) => {
                if number_of(data) != self.records {
                    return Ok(Some(RecordFault::BadCount(number)));
                }
            }
            (b'7', [_, _, _, _]) | (b'8', [_, _, _]) | (b'9', [_, _]) => {
                self.ending = Ending::Ended;
            }
            (b'4', _) => return Ok(Some(RecordFault::BadType(number))),
            _ => return Ok(Some(RecordFault::BadLength(number))),
        }
        Ok(None)
    }

    fn lay(
        &mut self,
        number: u32,
        offset: u64,
        data: &[u8],
    ) -> Result<Option<RecordFault>, AllocError> {
        let mut offset = offset;
        for byte in data {
            let low = if self.wraps { offset % 65_536 } else { offset };
            let addr = self.base.wrapping_add(low);
            if addr >= self.size {
                let addr = u32::try_from(addr).unwrap_or(u32::MAX);
                return Ok(Some(RecordFault::OutOfRange(number, addr)));
            }
            self.bytes.push((addr, *byte))?;
            offset = offset.wrapping_add(1);
        }
        self.records = self.records.wrapping_add(1);
        Ok(None)
    }
}

/// Returns the sum of these bytes modulo 256.
fn low_sum(bytes: &[u8]) -> u8 {
    bytes
        .iter()
        .fold(0u8, |total, byte| total.wrapping_add(*byte))
}
