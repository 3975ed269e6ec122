//! WAVE files by hand.

/// The body of a right fmt chunk.
pub fn fmt(hertz: u32) -> Vec<u8> {
    fmt_of(1, 1, hertz, 2 * hertz, 2, 16)
}

pub fn fmt_of(
    tag: u16,
    channels: u16,
    hertz: u32,
    bytes_a_second: u32,
    block: u16,
    bits: u16,
) -> Vec<u8> {
    [
        &tag.to_le_bytes()[..],
        &channels.to_le_bytes(),
        &hertz.to_le_bytes(),
        &bytes_a_second.to_le_bytes(),
        &block.to_le_bytes(),
        &bits.to_le_bytes(),
    ]
    .concat()
}

/// A file of these chunks, odd ones with a pad byte, every size right.
pub fn riff(chunks: &[(&str, &[u8])]) -> Vec<u8> {
    let mut file = b"RIFF\0\0\0\0WAVE".to_vec();
    for (name, body) in chunks {
        file.extend(name.as_bytes());
        file.extend((body.len() as u32).to_le_bytes());
        file.extend(*body);
        if body.len() % 2 == 1 {
            file.push(0);
        }
    }
    let size = file.len() as u32 - 8;
    with_word(file, 4, size)
}

/// The file with this number at this place.
pub fn with_word(mut file: Vec<u8>, at: usize, word: u32) -> Vec<u8> {
    file[at..at + 4].copy_from_slice(&word.to_le_bytes());
    file
}

/// The file with these bytes behind it, which no size counts.
pub fn then(file: Vec<u8>, bytes: &[u8]) -> Vec<u8> {
    [&file[..], bytes].concat()
}

/// The place of the size of the first chunk of this name.
pub fn size_of(file: &[u8], name: &str) -> usize {
    let mut places = file.windows(4);
    let place = places.position(|bytes| bytes == name.as_bytes());
    place.expect("there is such a chunk") + 4
}

/// The file with another size of the first chunk of this name.
pub fn resized(file: Vec<u8>, name: &str, size: u32) -> Vec<u8> {
    let at = size_of(&file, name);
    with_word(file, at, size)
}
