//! A pack: for each entry its length as a little-endian word, then its bytes.

use std::io::{self, Read, Write};

pub fn write(out: &mut impl Write, entry: &[u8]) -> io::Result<()> {
    out.write_all(&(entry.len() as u32).to_le_bytes())?;
    out.write_all(entry)
}

/// The next entry, or none at the end. An entry broken off is an error.
pub fn read(input: &mut impl Read) -> io::Result<Option<Vec<u8>>> {
    let mut length = Vec::new();
    input.by_ref().take(4).read_to_end(&mut length)?;
    if length.is_empty() {
        return Ok(None);
    }
    let length = length
        .try_into()
        .map_err(|_| io::ErrorKind::UnexpectedEof)?;
    let mut entry = vec![0; u32::from_le_bytes(length) as usize];
    input.read_exact(&mut entry)?;
    Ok(Some(entry))
}
