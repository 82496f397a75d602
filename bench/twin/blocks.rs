//! The reader of .blocks texts.

use std::collections::HashSet;

use crate::plan::{MOST_BLOCKS, SIDES};
use crate::refusal::{Refusal, refuse_if};

pub const LONGEST_TEXT: usize = 65_536;
const LONGEST_NAME: usize = 32;
const LONGEST_NUMBER: usize = 9;

/// One block of a text: where its name stands, and its sides.
#[derive(Clone, Copy, Debug, Default, PartialEq, Eq)]
pub struct Entry {
    pub start: u32,
    pub length: u32,
    pub width: u32,
    pub height: u32,
}

/// A word of a text and where it starts.
#[derive(Clone, Copy)]
struct Word<'a> {
    start: usize,
    bytes: &'a [u8],
}

pub fn is_name(bytes: &[u8]) -> bool {
    (1..=LONGEST_NAME).contains(&bytes.len()) && bytes.iter().all(|&b| b.is_ascii_alphanumeric() || b == b'_')
}

fn number(bytes: &[u8]) -> Option<u32> {
    if !(1..=LONGEST_NUMBER).contains(&bytes.len()) || !bytes.iter().all(u8::is_ascii_digit) {
        return None;
    }
    std::str::from_utf8(bytes).ok()?.parse().ok()
}

/// The words of a line that starts at `start` of its text.
fn words(line: &[u8], start: usize) -> Vec<Word<'_>> {
    let mut words = Vec::new();
    let mut at = 0;
    while at < line.len() {
        let length = match line[at] {
            b' ' | b'\t' => {
                at += 1;
                continue;
            }
            b'(' | b')' | b',' | b':' => 1,
            _ => line[at..].iter().position(|b| b" \t(),:".contains(b)).unwrap_or(line.len() - at),
        };
        words.push(Word { start: start + at, bytes: &line[at..at + length] });
        at += length;
    }
    words
}

/// The lines that are used, each with its number and its words.
fn used_lines(text: &[u8]) -> impl Iterator<Item = (u32, Vec<Word<'_>>)> {
    let mut start = 0;
    text.split_inclusive(|&b| b == b'\n').zip(1..).filter_map(move |(line, at)| {
        let words = match line {
            [b'#', ..] => Vec::new(),
            [line @ .., b'\r', b'\n'] | [line @ .., b'\n'] | line => words(line, start),
        };
        start += line.len();
        (!words.is_empty()).then_some((at, words))
    })
}

fn is(words: &[Word], expected: &[&str]) -> bool {
    words.iter().map(|word| word.bytes).eq(expected.iter().map(|word| word.as_bytes()))
}

/// The number of a count line of that name.
fn count(words: &[Word], name: &str) -> Option<u32> {
    let (last, first) = words.split_last()?;
    if is(first, &[name, ":"]) { number(last.bytes) } else { None }
}

/// The vertex that the words begin with, and the words behind it.
fn vertex<'a, 'b>(words: &'b [Word<'a>]) -> Option<((u32, u32), &'b [Word<'a>])> {
    let [open, x, comma, y, close, rest @ ..] = words else { return None };
    if open.bytes != b"(" || comma.bytes != b"," || close.bytes != b")" {
        return None;
    }
    Some(((number(x.bytes)?, number(y.bytes)?), rest))
}

enum Line {
    Terminal,
    Block { start: usize, length: usize, vertices: [(u32, u32); 4] },
}

fn line(words: &[Word]) -> Option<Line> {
    let [name, kind, rest @ ..] = words else { return None };
    if !is_name(name.bytes) {
        return None;
    }
    match (kind.bytes, rest) {
        (b"terminal", []) => Some(Line::Terminal),
        (b"hardrectilinear", [four, rest @ ..]) if four.bytes == b"4" => {
            let (first, rest) = vertex(rest)?;
            let (second, rest) = vertex(rest)?;
            let (third, rest) = vertex(rest)?;
            let (fourth, rest) = vertex(rest)?;
            let vertices = [first, second, third, fourth];
            rest.is_empty().then_some(Line::Block { start: name.start, length: name.bytes.len(), vertices })
        }
        _ => None,
    }
}

/// The blocks of a text, or the first refusal but 18.
fn parse(text: &[u8]) -> Result<Vec<Entry>, Refusal> {
    refuse_if(text.len() > LONGEST_TEXT, 19, 0)?;
    let mut lines = used_lines(text);
    let Some((at, header)) = lines.next() else { return Err(Refusal { number: 13, place: 0 }) };
    refuse_if(!is(&header, &["UCSC", "blocks", "1.0"]), 13, at)?;
    let mut counts = Vec::new();
    for name in ["NumSoftRectangularBlocks", "NumHardRectilinearBlocks", "NumTerminals"] {
        let Some((at, words)) = lines.next() else { return Err(Refusal { number: 17, place: 0 }) };
        counts.push(count(&words, name).ok_or(Refusal { number: 14, place: at })?);
    }
    let (mut blocks, mut terminals) = (Vec::new(), 0);
    let mut names = HashSet::new();
    for (at, words) in lines {
        match line(&words).ok_or(Refusal { number: 14, place: at })? {
            Line::Terminal => terminals += 1,
            Line::Block { start, length, vertices } => {
                let (width, height) = vertices[2];
                refuse_if(vertices != [(0, 0), (0, height), (width, height), (width, 0)], 15, at)?;
                refuse_if(!SIDES.contains(&width) || !SIDES.contains(&height), 3, at)?;
                refuse_if(!names.insert(&text[start..start + length]), 16, at)?;
                refuse_if(blocks.len() == MOST_BLOCKS, 1, at)?;
                blocks.push(Entry { start: start as u32, length: length as u32, width, height });
            }
        }
    }
    refuse_if(counts != [0, blocks.len() as u32, terminals], 17, 0)?;
    Ok(blocks)
}

/// Fills one record a block and answers the number of blocks.
pub fn read_blocks(text: &[u8], records: &mut [Entry]) -> Result<usize, Refusal> {
    let blocks = parse(text)?;
    refuse_if(records.len() < blocks.len(), 18, 0)?;
    records[..blocks.len()].copy_from_slice(&blocks);
    Ok(blocks.len())
}

#[cfg(test)]
mod tests {
    use super::*;

    const SMALL: &str = "UCSC blocks 1.0\r\n# two blocks\n\nNumSoftRectangularBlocks : 0\nNumHardRectilinearBlocks : 2\n\
        NumTerminals : 1\n\na hardrectilinear 4 (0, 0) (0, 3) (4, 3) (4, 0)\np1 terminal\n\
        bb\thardrectilinear 4(0,0)(0,2)(3,2)(3,0)";

    fn refusal(text: &str) -> (u8, u32) {
        let refusal = read_blocks(text.as_bytes(), &mut [Entry::default(); 600]).unwrap_err();
        (refusal.number, refusal.place)
    }

    #[test]
    fn reads_two_blocks() {
        let mut records = [Entry::default(); 3];
        assert_eq!(read_blocks(SMALL.as_bytes(), &mut records), Ok(2));
        let place = |name: &str| SMALL.find(name).unwrap() as u32;
        assert_eq!(records[0], Entry { start: place("a hard"), length: 1, width: 4, height: 3 });
        assert_eq!(records[1], Entry { start: place("bb\t"), length: 2, width: 3, height: 2 });
        assert_eq!(records[2], Entry::default());
        assert_eq!(read_blocks(SMALL.as_bytes(), &mut records[..1]).unwrap_err().number, 18);
    }

    #[test]
    fn refuses() {
        assert_eq!(refusal(""), (13, 0));
        assert_eq!(refusal(" \n#\n"), (13, 0));
        assert_eq!(refusal("\n #\n"), (13, 2));
        assert_eq!(refusal("UCSC blocks 1.0"), (17, 0));
        assert_eq!(refusal(&SMALL.replace(" : 2", " : 3")), (17, 0));
        assert_eq!(refusal(&SMALL.replace(" : 2", " : 1234567890")), (14, 5));
        assert_eq!(refusal(&SMALL.replace("NumTerminals", "NumSoftRectangularBlocks")), (14, 6));
        assert_eq!(refusal(&SMALL.replace("(4, 3)", "(3, 4)")), (15, 8));
        assert_eq!(refusal(&SMALL.replace('4', "131073")), (14, 8));
        assert_eq!(refusal(&SMALL.replace("(3,", "(131073,")), (3, 10));
        assert_eq!(refusal(&SMALL.replace("bb", "a")), (16, 10));
        assert_eq!(refusal(&SMALL.replace("p1", "p\r1")), (14, 9));
        assert_eq!(refusal(&" ".repeat(65_537)), (19, 0));
    }

    #[test]
    fn takes_512_blocks() {
        let text = |n: usize| {
            let lines: String = (0..n).map(|i| format!("b{i} hardrectilinear 4 (0,0)(0,1)(1,1)(1,0)\n")).collect();
            format!("UCSC blocks 1.0\nNumSoftRectangularBlocks:0\nNumHardRectilinearBlocks:{n}\nNumTerminals:0\n{lines}")
        };
        assert_eq!(read_blocks(text(512).as_bytes(), &mut [Entry::default(); 512]), Ok(512));
        assert_eq!(refusal(&text(513)), (1, 517));
    }
}
