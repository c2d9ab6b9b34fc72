//! PNG files of sixteen colours, not compressed: nothing but what such a file must have.

/// Red, green and blue.
pub type Colour = [u8; 3];

/// The most bytes that a stored block of deflate holds.
const STORED: usize = 65535;

/// A PNG file of `w` columns, from the number of each pixel's colour, 0 to 15, by rows.
pub fn encoded(w: usize, pixels: &[u8], palette: &[Colour; 16]) -> Vec<u8> {
    let mut head = Vec::new();
    head.extend((w as u32).to_be_bytes());
    head.extend((pixels.len() as u32 / w as u32).to_be_bytes());
    // Four bits a pixel, by palette, and the only compression, filters and order of rows.
    head.extend([4, 3, 0, 0, 0]);

    let mut lines = Vec::new();
    for row in pixels.chunks(w) {
        // No filter.
        lines.push(0);
        lines.extend(row.chunks(2).map(|pair| pair[0] << 4 | pair.get(1).unwrap_or(&0)));
    }

    let mut file = b"\x89PNG\r\n\x1a\n".to_vec();
    chunk(&mut file, b"IHDR", &head);
    chunk(&mut file, b"PLTE", palette.as_flattened());
    chunk(&mut file, b"IDAT", &stored(&lines));
    chunk(&mut file, b"IEND", &[]);
    file
}

fn chunk(file: &mut Vec<u8>, name: &[u8; 4], bytes: &[u8]) {
    file.extend((bytes.len() as u32).to_be_bytes());
    // The checksum is of the name too, but not of the length.
    let checked = file.len();
    file.extend(name);
    file.extend(bytes);
    file.extend(crc32(&file[checked..]).to_be_bytes());
}

/// A zlib stream of stored blocks.
fn stored(bytes: &[u8]) -> Vec<u8> {
    let mut stream = vec![0x78, 0x01];
    let blocks = bytes.chunks(STORED);
    let last = blocks.len() - 1;
    for (at, block) in blocks.enumerate() {
        let length = block.len() as u16;
        stream.push((at == last) as u8);
        stream.extend(length.to_le_bytes());
        stream.extend((!length).to_le_bytes());
        stream.extend(block);
    }
    stream.extend(adler32(bytes).to_be_bytes());
    stream
}

fn crc32(bytes: &[u8]) -> u32 {
    let bit = |crc: u32, _| crc >> 1 ^ (0xedb8_8320 * (crc & 1));
    !bytes.iter().fold(!0, |crc, &byte| (0..8).fold(crc ^ u32::from(byte), bit))
}

fn adler32(bytes: &[u8]) -> u32 {
    let (a, b) = bytes.iter().fold((1, 0), |(a, b), &byte| {
        let a = (a + u32::from(byte)) % 65521;
        (a, (b + a) % 65521)
    });
    b << 16 | a
}

#[cfg(test)]
mod tests {
    use super::*;

    #[test]
    fn checksums_are_the_published_ones() {
        assert_eq!(crc32(b"123456789"), 0xcbf4_3926);
        assert_eq!(crc32(b"IEND"), 0xae42_6082);
        assert_eq!(adler32(b"Wikipedia"), 0x11e6_0398);
        assert_eq!(adler32(b""), 1);
    }

    #[test]
    fn long_streams_are_cut_and_come_back() {
        for length in [1, STORED, STORED + 1, 3 * STORED - 1] {
            let bytes: Vec<u8> = (0..length).map(|at| (at * 7 % 251) as u8).collect();
            let stream = stored(&bytes);
            let (mut back, mut at, mut last) = (Vec::<u8>::new(), 2, 0);
            while last == 0 {
                let [low, high, not_low, not_high] = stream[at + 1..at + 5] else { panic!() };
                assert_eq!((low, high), (!not_low, !not_high));
                last = stream[at];
                let length = usize::from(u16::from_le_bytes([low, high]));
                back.extend(&stream[at + 5..][..length]);
                at += 5 + length;
            }
            assert_eq!(back, bytes);
            assert_eq!(stream[at..], adler32(&bytes).to_be_bytes());
        }
    }

    /// Worked by hand from the format's description, but for the checksums above.
    #[test]
    fn a_small_picture_has_these_bytes() {
        let mut palette = [[0; 3]; 16];
        palette[15] = [255, 128, 1];
        let file = encoded(3, &[0, 15, 1, 2, 3, 4], &palette);
        let head = *b"\x89PNG\r\n\x1a\n\0\0\0\x0dIHDR\0\0\0\x03\0\0\0\x02\x04\x03\0\0\0";
        assert_eq!(file[..head.len()], head);
        let colours = &file[head.len() + 4..][..4 + 4 + 48];
        assert_eq!(colours[..8], *b"\0\0\0\x30PLTE");
        assert_eq!(colours[8 + 45..], [255, 128, 1]);
        let data = &file[head.len() + 4 + 8 + 48 + 4..];
        assert_eq!(data[..8], *b"\0\0\0\x11IDAT");
        let lines = [0, 0x0f, 0x10, 0, 0x23, 0x40];
        assert_eq!(data[8..15], [0x78, 0x01, 1, 6, 0, 0xf9, 0xff]);
        assert_eq!(data[15..21], lines);
        assert_eq!(data[21..25], adler32(&lines).to_be_bytes());
        assert_eq!(data[25..29], crc32(&data[4..25]).to_be_bytes());
        assert_eq!(data[29..], *b"\0\0\0\0IEND\xae\x42\x60\x82");
    }
}
