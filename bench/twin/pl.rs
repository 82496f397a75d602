//! The writer of .pl texts.

use std::io::Write;

use crate::blocks::{Entry, LONGEST_TEXT, is_name};
use crate::pack::Placement;
use crate::refusal::{Refusal, refuse_if};

/// The bytes that a record marks, if they lie in the text and are a name.
fn name<'a>(text: &'a [u8], entry: &Entry) -> Option<&'a [u8]> {
    let start = usize::try_from(entry.start).ok()?;
    let end = start.checked_add(usize::try_from(entry.length).ok()?)?;
    text.get(start..end).filter(|bytes| is_name(bytes))
}

/// Copies bytes to the buffer's beginning and answers how many.
pub fn copy_out(bytes: &[u8], buffer: &mut [u8]) -> Result<usize, Refusal> {
    refuse_if(buffer.len() < bytes.len(), 18, 0)?;
    buffer[..bytes.len()].copy_from_slice(bytes);
    Ok(bytes.len())
}

pub fn write_pl(text: &[u8], entries: &[Entry], places: &[Placement], buffer: &mut [u8]) -> Result<usize, Refusal> {
    refuse_if(text.len() > LONGEST_TEXT, 19, 0)?;
    refuse_if(entries.len() != places.len(), 2, 0)?;
    let mut written = b"UCLA pl 1.0\n\n".to_vec();
    for ((entry, place), block) in entries.iter().zip(places).zip(0..) {
        let name = name(text, entry).ok_or(Refusal { number: 20, place: block })?;
        if place.width > 0 {
            written.extend_from_slice(name);
            writeln!(written, " {} {}", place.x, place.y).expect("a vector takes all bytes");
        }
    }
    copy_out(&written, buffer)
}
