//! Takes a packet's bytes apart into fields, headers and payload, and puts them together again:
//! sections 7.5 and 7.6.

use crate::meaning::Fields;
use crate::program::*;

pub const PACKET_LIMIT: usize = 2048;

/// The code of a packet that is too long, or ends within a header.
pub const REFUSED: u8 = 6;

/// What the parser found. The payload is the packet from `payload` on.
pub struct Parsed {
    pub fields: Fields,
    present: [bool; HEADER_LIMIT],
    payload: usize,
}

pub fn parse(program: &Program, bytes: &[u8]) -> Option<Parsed> {
    if bytes.len() > PACKET_LIMIT {
        return None;
    }
    let mut parsed = Parsed {
        fields: [0; FIELD_LIMIT],
        present: [false; HEADER_LIMIT],
        payload: 0,
    };
    let mut next = Some(program.first);
    while let Some(number) = next {
        let header = &program.headers[number];
        let end = parsed.payload + header.bytes;
        let mut bits = BitReader::new(bytes.get(parsed.payload..end)?);
        for field in header.fields.clone() {
            parsed.fields[field] = bits.take(program.fields[field].width);
        }
        parsed.present[number] = true;
        parsed.payload = end;
        next = header.after.as_ref().and_then(|after| {
            let value = parsed.fields[after.by];
            after
                .choices
                .iter()
                .find(|choice| choice.value == value)?
                .next
        });
    }
    Some(parsed)
}

/// Writes the packet behind what `output` has already.
pub fn deparse(program: &Program, parsed: &Parsed, bytes: &[u8], output: &mut Vec<u8>) {
    for (header, _) in program
        .headers
        .iter()
        .zip(parsed.present)
        .filter(|(_, present)| *present)
    {
        let mut bits = BitWriter::new(output);
        for field in header.fields.clone() {
            bits.put(parsed.fields[field], program.fields[field].width);
        }
    }
    output.extend_from_slice(&bytes[parsed.payload..]);
}

/// Reads bits from the high bit of the first byte on.
struct BitReader<'bytes> {
    bytes: std::slice::Iter<'bytes, u8>,
    /// Bits that were read and not yet taken, the lowest `count` of this number.
    held: u64,
    count: u32,
}

impl<'bytes> BitReader<'bytes> {
    fn new(bytes: &'bytes [u8]) -> Self {
        BitReader {
            bytes: bytes.iter(),
            held: 0,
            count: 0,
        }
    }

    fn take(&mut self, width: u32) -> u32 {
        while self.count < width {
            let byte = self
                .bytes
                .next()
                .expect("the fields of a header have its bytes");
            self.held = self.held << 8 | u64::from(*byte);
            self.count += 8;
        }
        self.count -= width;
        let value = self.held >> self.count;
        self.held &= (1 << self.count) - 1;
        value as u32
    }
}

struct BitWriter<'bytes> {
    bytes: &'bytes mut Vec<u8>,
    /// Bits that are not a whole byte yet, the lowest `count` of this number.
    held: u64,
    count: u32,
}

impl<'bytes> BitWriter<'bytes> {
    fn new(bytes: &'bytes mut Vec<u8>) -> Self {
        BitWriter {
            bytes,
            held: 0,
            count: 0,
        }
    }

    fn put(&mut self, value: u32, width: u32) {
        self.held = self.held << width | u64::from(value);
        self.count += width;
        while self.count >= 8 {
            self.count -= 8;
            self.bytes.push((self.held >> self.count) as u8);
        }
        self.held &= (1 << self.count) - 1;
    }
}

#[cfg(test)]
mod tests {
    use super::*;
    use crate::source;

    #[test]
    fn bits_of_a_header() {
        let program = source::read(b"header p { a 4; b 12; } first p; do { }").unwrap();
        let bytes = [0x4a, 0xbc, 0xee];
        let mut parsed = parse(&program, &bytes).unwrap();
        assert_eq!(parsed.fields[..3], [0, 4, 0xabc]);
        parsed.fields[2] = 0x123;
        let mut output = Vec::new();
        deparse(&program, &parsed, &bytes, &mut output);
        assert_eq!(output, [0x41, 0x23, 0xee]);
        assert!(parse(&program, &[]).is_none());
        assert!(parse(&program, &bytes[..1]).is_none());
        assert!(parse(&program, &[0; 2048]).is_some());
        assert!(parse(&program, &[0; 2049]).is_none());
    }

    #[test]
    fn odd_widths() {
        let source = b"header p { a 1; b 32; c 31; d 3; e 29; } first p; do { }";
        let program = source::read(source).unwrap();
        let bytes: Vec<u8> = (0..12).map(|n| n * 37 + 11).collect();
        let parsed = parse(&program, &bytes).unwrap();
        let whole = bytes
            .iter()
            .fold(0u128, |sum, &byte| sum << 8 | u128::from(byte));
        assert_eq!(u128::from(parsed.fields[1]), whole >> 95);
        assert_eq!(u128::from(parsed.fields[2]), whole >> 63 & 0xffff_ffff);
        assert_eq!(u128::from(parsed.fields[3]), whole >> 32 & 0x7fff_ffff);
        assert_eq!(u128::from(parsed.fields[4]), whole >> 29 & 7);
        assert_eq!(u128::from(parsed.fields[5]), whole & 0x1fff_ffff);
        let mut output = Vec::new();
        deparse(&program, &parsed, &bytes, &mut output);
        assert_eq!(output, bytes);
    }

    #[test]
    fn choices() {
        let source = b"header a { k 8; } header b { k 8; x 8; } header c { y 8; } first a; \
                       after a by k { 1 : b; 2 : c; 3 : end; 2 : b; 300 : c; } \
                       after b by k { 9 : c; } do { }";
        let program = source::read(source).unwrap();
        let present =
            |bytes: &[u8]| parse(&program, bytes).map(|parsed| parsed.present[..3].to_vec());
        assert_eq!(present(&[0, 1]), Some(vec![true, false, false]));
        assert_eq!(present(&[44]), Some(vec![true, false, false]));
        assert_eq!(present(&[3]), Some(vec![true, false, false]));
        assert_eq!(present(&[2, 7]), Some(vec![true, false, true]));
        assert_eq!(present(&[2]), None);
        assert_eq!(present(&[1, 9]), None);
        assert_eq!(present(&[1, 8, 0]), Some(vec![true, true, false]));
        assert_eq!(present(&[1, 9, 0]), None);
        assert_eq!(present(&[1, 9, 0, 4, 5]), Some(vec![true, true, true]));
        // A field that chose may change, and the headers stay.
        let bytes = [1, 9, 0, 4, 5];
        let mut parsed = parse(&program, &bytes).unwrap();
        parsed.fields[1] = 77;
        let mut output = Vec::new();
        deparse(&program, &parsed, &bytes, &mut output);
        assert_eq!(output, [77, 9, 0, 4, 5]);
    }
}
