//! Random texts and records, sound and damaged, for the reader, the writer and plot.

use twin::blocks::{Entry, read_blocks};
use twin::pack::Placement;

use crate::numbers::Numbers;

const NAME_BYTES: &[u8] = b"abcdefghijklmnopqrstuvwxyzABCDEFGHIJKLMNOPQRSTUVWXYZ0123456789_";
/// Bytes that a damaged text gets: those of the forms, and some of no form.
const ODD_BYTES: &[u8] = b"\r\n\r\n \t(),:#047aZ_-.\0\x80\xff\x0b\x0c";

enum Item {
    Block { name: Vec<u8>, vertices: [(u64, u64); 4] },
    Terminal(Vec<u8>),
}

struct Maker {
    numbers: Numbers,
    text: Vec<u8>,
    /// Whether the text has blanks and line ends of all kinds.
    loose: bool,
    /// Whether it has lines that look right and are not.
    odd: bool,
}

impl Maker {
    fn name(&mut self) -> Vec<u8> {
        let length = match self.numbers.below(12) {
            0 => 32,
            1 => self.numbers.between(1, 32),
            _ => self.numbers.between(1, 4),
        };
        (0..length).map(|_| self.numbers.pick(NAME_BYTES)).collect()
    }

    fn items(&mut self) -> Vec<Item> {
        let blocks = match self.numbers.below(40) {
            0 => 512,
            1 => 513,
            2..=5 => self.numbers.below(200),
            _ => self.numbers.below(12),
        };
        let longest = self.numbers.pick(&[4, 30, 131_072]);
        let mut items: Vec<Item> = (0..blocks)
            .map(|_| {
                let side = |numbers: &mut Numbers| numbers.between(1, longest) as u64;
                let (w, h) = (side(&mut self.numbers), side(&mut self.numbers));
                Item::Block { name: self.name(), vertices: [(0, 0), (0, h), (w, h), (w, 0)] }
            })
            .collect();
        if self.numbers.percent(if blocks > 100 { 95 } else { 85 }) {
            self.rename(&mut items);
        }
        for _ in 0..self.numbers.below(5) {
            let terminal = Item::Terminal(self.name());
            let place = self.numbers.below(items.len() + 1);
            items.insert(place, terminal);
        }
        items
    }

    /// Makes the names different.
    fn rename(&mut self, items: &mut [Item]) {
        for (i, item) in items.iter_mut().enumerate() {
            if let Item::Block { name, .. } = item {
                name.truncate(28);
                name.extend_from_slice(format!("_{i}").as_bytes());
            }
        }
    }

    /// Puts a fault into the items. Some leave them sound.
    fn damage_items(&mut self, items: &mut [Item]) {
        let place = self.numbers.below(items.len());
        let other = self.numbers.below(items.len());
        let other_name = match items.get(other) {
            Some(Item::Block { name, .. } | Item::Terminal(name)) => name.clone(),
            None => Vec::new(),
        };
        let odd = self.numbers.pick(&[0, 1, 5, 131_072, 131_073, 999_999_999, 1_000_000_000, 4_294_967_297]);
        match (items.get_mut(place), self.numbers.below(7)) {
            (Some(Item::Block { vertices, .. }), 0) => vertices[self.numbers.below(4)].0 = odd,
            (Some(Item::Block { vertices, .. }), 1) => vertices[self.numbers.below(4)].1 = odd,
            (Some(Item::Block { vertices, .. }), 2) => {
                let (w, h) = (odd, self.numbers.between(1, 9) as u64);
                *vertices =
                    if self.numbers.percent(50) { [(0, 0), (0, h), (w, h), (w, 0)] } else { [(0, 0), (0, w), (h, w), (h, 0)] };
            }
            (Some(Item::Block { vertices, .. }), 3) => vertices.swap(self.numbers.below(4), 3),
            (Some(Item::Block { name, .. } | Item::Terminal(name)), 4) => *name = other_name,
            (Some(Item::Block { name, .. } | Item::Terminal(name)), 5) => name.extend_from_slice(&[b'x'; 30]),
            (Some(Item::Block { name, .. } | Item::Terminal(name)), 6) if self.numbers.percent(30) => {
                let byte = self.numbers.pick(ODD_BYTES);
                name.push(byte);
            }
            _ => {}
        }
    }

    fn blank(&mut self) {
        let blanks: &[&[u8]] = if self.loose { &[b" ", b" ", b"\t", b"  ", b" \t "] } else { &[b" "] };
        let blank = self.numbers.pick(blanks);
        self.text.extend_from_slice(blank);
    }

    fn maybe_blank(&mut self) {
        if self.loose && self.numbers.percent(20) {
            self.blank();
        }
    }

    fn words(&mut self, words: &[&[u8]]) {
        self.maybe_blank();
        for (i, word) in words.iter().enumerate() {
            if i > 0 {
                self.blank();
            }
            self.text.extend_from_slice(word);
        }
        self.maybe_blank();
    }

    fn number(&mut self, number: u64) {
        if self.loose && self.numbers.percent(4) {
            self.text.push(b'0');
        }
        self.text.extend_from_slice(number.to_string().as_bytes());
        self.maybe_blank();
    }

    fn end_line(&mut self) {
        self.text.extend_from_slice(if self.loose && self.numbers.percent(20) { b"\r\n" } else { b"\n" });
        if self.loose && self.numbers.percent(8) {
            let skipped: &[&[u8]] = &[b"\n", b" \t\n", b"# a comment\n", b"#\r\n", b"\r\n", b" # no comment\n", b"#(\r,\n"];
            let kinds = if self.odd { 7 } else { 5 };
            let line = self.numbers.below(kinds);
            self.text.extend_from_slice(skipped[line]);
        }
    }

    fn count(&mut self, name: &str, count: usize) {
        let count = if self.odd && self.numbers.percent(20) { count + 1 } else { count };
        self.words(&[name.as_bytes()]);
        self.text.push(b':');
        self.maybe_blank();
        self.number(count as u64);
        self.end_line();
    }

    fn item(&mut self, item: &Item) {
        match item {
            Item::Terminal(name) => self.words(&[name, b"terminal"]),
            Item::Block { name, vertices } => {
                let four: &[u8] = if self.odd && self.numbers.percent(5) { b"04" } else { b"4" };
                self.words(&[name, b"hardrectilinear", four]);
                for (x, y) in vertices {
                    self.maybe_blank();
                    self.text.push(b'(');
                    self.maybe_blank();
                    self.number(*x);
                    self.text.push(b',');
                    self.maybe_blank();
                    self.number(*y);
                    self.text.push(b')');
                }
                self.maybe_blank();
            }
        }
        self.end_line();
    }

    fn write(&mut self, items: &[Item]) {
        let blocks = items.iter().filter(|item| matches!(item, Item::Block { .. })).count();
        self.words(&[b"UCSC", b"blocks", b"1.0"]);
        self.end_line();
        self.count("NumSoftRectangularBlocks", 0);
        self.count("NumHardRectilinearBlocks", blocks);
        self.count("NumTerminals", items.len() - blocks);
        for item in items {
            self.item(item);
        }
        while self.numbers.percent(20) {
            self.text.pop();
        }
    }

    /// Puts a fault into the bytes. Some leave them sound.
    fn damage_bytes(&mut self) {
        // Most faults go to the front, where the header and the counts are.
        let part = if self.numbers.percent(30) { self.text.len().min(110) } else { self.text.len() };
        let place = self.numbers.below(part);
        let mut lines: Vec<Vec<u8>> = self.text.split_inclusive(|&b| b == b'\n').map(<[u8]>::to_vec).collect();
        let (line, other) = (self.numbers.below(lines.len()), self.numbers.below(lines.len()));
        match self.numbers.below(9) {
            _ if self.text.is_empty() => {}
            0 => self.text[place] = self.numbers.pick(ODD_BYTES),
            1 => drop(self.text.remove(place)),
            2 => self.text.insert(place, self.text[place]),
            3 => self.text.insert(place, self.numbers.pick(ODD_BYTES)),
            4 => self.text.truncate(place),
            5 => self.text.push(self.numbers.pick(ODD_BYTES)),
            6 => {
                lines.swap(line, other);
                self.text = lines.concat();
            }
            7 => {
                lines.remove(line);
                self.text = lines.concat();
            }
            _ => {
                lines.insert(other, lines[line].clone());
                self.text = lines.concat();
            }
        }
    }
}

/// A .blocks text: sound, or with a few faults.
pub fn text(seed: u64) -> Vec<u8> {
    let mut numbers = Numbers::new(seed);
    let (loose, odd) = (numbers.percent(60), numbers.percent(8));
    let mut maker = Maker { numbers, text: Vec::new(), loose, odd };
    let mut items = maker.items();
    let faults = maker.numbers.pick(&[0, 0, 0, 1, 1, 2, 3]);
    let in_items = maker.numbers.below(faults + 1);
    (0..in_items).for_each(|_| maker.damage_items(&mut items));
    maker.write(&items);
    (in_items..faults).for_each(|_| maker.damage_bytes());
    if maker.numbers.percent(1) && maker.text.len() < 65_000 {
        let length = maker.numbers.pick(&[65_535, 65_536, 65_537, 65_538]);
        maker.text.extend_from_slice(b"\n#");
        maker.text.resize(length, b' ');
    }
    maker.text
}

/// What a writer is given.
pub struct Records {
    pub text: Vec<u8>,
    pub entries: Vec<Entry>,
    pub places: Vec<Placement>,
}

/// The records of a text's blocks with placements, or with a few faults.
pub fn records(seed: u64) -> Records {
    let mut numbers = Numbers::new(seed ^ 0x7777);
    let mut text = text(seed);
    let mut entries = vec![Entry::default(); 512];
    let mut read = read_blocks(&text, &mut entries);
    while read.is_err() && numbers.percent(80) {
        text = self::text(numbers.below(1_000_000) as u64);
        read = read_blocks(&text, &mut entries);
    }
    let n = read.unwrap_or(numbers.below(4));
    entries.truncate(n);
    let any =
        |numbers: &mut Numbers| numbers.pick(&[0, 1, 9, 10, 99, 100, 1_000, 67_108_864, 999_999_999, 1_000_000_000, u32::MAX]);
    let place = |numbers: &mut Numbers| Placement {
        x: numbers.below(2_000_000) as u32 + any(numbers) / 2,
        y: any(numbers),
        width: if numbers.percent(20) { 0 } else { any(numbers).max(1) },
        height: any(numbers),
    };
    let mut places: Vec<Placement> = (0..n).map(|_| place(&mut numbers)).collect();
    if numbers.percent(10) {
        places.push(place(&mut numbers));
    }
    if n > 0 && numbers.percent(20) {
        let entry = &mut entries[numbers.below(n)];
        match numbers.below(5) {
            0 => entry.length = numbers.pick(&[0, 33, 70_000, u32::MAX]),
            1 => entry.start = numbers.pick(&[text.len() as u32, text.len() as u32 - 1, u32::MAX, 0]),
            2 => entry.start += 1,
            3 => entry.length += 1,
            _ => entry.start = entry.start.wrapping_sub(1),
        }
    }
    if n > 0 && numbers.below(2_000) == 0 {
        entries = vec![entries[0]; 65_540];
        places = vec![places[0]; 65_540];
        entries[65_538].length = 0;
    }
    Records { text, entries, places }
}
