//! A PNG file of pixels in a few colours, not compressed.

use std::{fs, io, path::Path};

pub struct Image {
    pub width: usize,
    pub height: usize,
    /// A colour's place in the palette for each pixel, row by row.
    pixels: Vec<u8>,
}

impl Image {
    pub fn new(width: usize, height: usize) -> Image {
        Image { width, height, pixels: vec![0; width * height] }
    }

    /// Sets a pixel; outside of the image nothing.
    pub fn set(&mut self, x: i32, y: i32, colour: u8) {
        let (x, y) = (x as usize, y as usize);
        if x < self.width && y < self.height {
            self.pixels[y * self.width + x] = colour;
        }
    }

    pub fn write(&self, path: &Path, palette: &[[u8; 3]]) -> io::Result<()> {
        let size = [(self.width as u32).to_be_bytes(), (self.height as u32).to_be_bytes()].concat();
        let mut bytes = b"\x89PNG\r\n\x1a\n".to_vec();
        // eight bits a pixel, a place in the palette
        chunk(&mut bytes, b"IHDR", &[&size[..], &[8, 3, 0, 0, 0]].concat());
        chunk(&mut bytes, b"PLTE", palette.as_flattened());
        let rows: Vec<u8> = self.pixels.chunks_exact(self.width).flat_map(|row| [&[0], row].concat()).collect();
        chunk(&mut bytes, b"IDAT", &stored(&rows));
        chunk(&mut bytes, b"IEND", &[]);
        fs::write(path, bytes)
    }
}

fn chunk(bytes: &mut Vec<u8>, name: &[u8; 4], data: &[u8]) {
    let named = [&name[..], data].concat();
    bytes.extend((data.len() as u32).to_be_bytes());
    bytes.extend(&named);
    bytes.extend(crc32(&named).to_be_bytes());
}

/// A zlib stream of stored blocks.
fn stored(data: &[u8]) -> Vec<u8> {
    let mut bytes = vec![0x78, 0x01];
    let blocks = data.chunks(65_535);
    let last = blocks.len() - 1;
    for (at, block) in blocks.enumerate() {
        let length = block.len() as u16;
        bytes.push(u8::from(at == last));
        bytes.extend(length.to_le_bytes());
        bytes.extend((!length).to_le_bytes());
        bytes.extend(block);
    }
    bytes.extend(adler32(data).to_be_bytes());
    bytes
}

fn crc32(data: &[u8]) -> u32 {
    let shift = |crc: u32, _| if crc & 1 == 1 { crc >> 1 ^ 0xEDB8_8320 } else { crc >> 1 };
    !data.iter().fold(!0, |crc, &byte| (0..8).fold(crc ^ u32::from(byte), shift))
}

fn adler32(data: &[u8]) -> u32 {
    let (low, high) = data.iter().fold((1u32, 0u32), |(low, high), &byte| {
        let low = (low + u32::from(byte)) % 65_521;
        (low, (high + low) % 65_521)
    });
    high << 16 | low
}
