//! The script language of the program `session`: what it prints for a script.

use std::fmt::Write;

use crate::edits::Edit;
use crate::pack::Placement;
use crate::plan::{Lists, Plan, Side};
use crate::refusal::Refusal;
use crate::skyline::{Kind, Skyline};

const MOST_WALK: u32 = 1_000_000;
const MOST_RECORDS: u32 = 100_000;

enum Line {
    Block((u32, u32), u8, (u16, u16)),
    Size((u32, u32)),
    Letter(u8),
    Pair((u16, u16)),
    Load {
        root: u16,
        walk: u32,
    },
    Test(Edit),
    Begin(Edit),
    Keep,
    Undo,
    Report(u16),
    Skyline {
        kind: Kind,
        columns: u32,
        records: u32,
    },
    Clear,
    Highest(u32, u32),
    Raise(u32, u32, u32),
    /// A packing of the plan in hand.
    Pack {
        walk: u32,
        places: u32,
    },
}

fn number(word: &[u8]) -> Option<u32> {
    let fits = (1..=9).contains(&word.len()) && word.iter().all(u8::is_ascii_digit);
    if fits { std::str::from_utf8(word).ok()?.parse().ok() } else { None }
}

fn at_most(most: u32, word: &[u8]) -> Option<u32> {
    number(word).filter(|&number| number <= most)
}

fn block(word: &[u8]) -> Option<u16> {
    number(word).and_then(|number| u16::try_from(number).ok())
}

fn letter(word: &[u8]) -> Option<u8> {
    if let [byte] = word { Some(*byte) } else { None }
}

fn side(word: &[u8]) -> Option<Side> {
    match word {
        b"left" => Some(Side::Left),
        b"right" => Some(Side::Right),
        _ => None,
    }
}

fn edit(words: &[&[u8]]) -> Option<Edit> {
    Some(match *words {
        [b"turn", i] => Edit::Turn(block(i)?),
        [b"swap", i, j] => Edit::Swap(block(i)?, block(j)?),
        [b"out", i] => Edit::TakeOut(block(i)?),
        [b"in", i, j, s] => Edit::PutIn(block(i)?, block(j)?, side(s)?),
        [b"move", i, j, s] => Edit::Move(block(i)?, block(j)?, side(s)?),
        _ => return None,
    })
}

/// What the words of a line say; none if they are not understood.
fn line(words: &[&[u8]]) -> Option<Line> {
    Some(match *words {
        [b"block", w, h, x, l, r] => Line::Block((number(w)?, number(h)?), letter(x)?, (block(l)?, block(r)?)),
        [b"size", w, h] => Line::Size((number(w)?, number(h)?)),
        [b"letter", x] => Line::Letter(letter(x)?),
        [b"pair", l, r] => Line::Pair((block(l)?, block(r)?)),
        [b"load", root, walk] => Line::Load { root: block(root)?, walk: at_most(MOST_WALK, walk)? },
        [b"test", ref words @ ..] => Line::Test(edit(words)?),
        [b"begin", ref words @ ..] => Line::Begin(edit(words)?),
        [b"keep"] => Line::Keep,
        [b"undo"] => Line::Undo,
        [b"report", i] => Line::Report(block(i)?),
        [b"skyline", b"columns", c] => Line::Skyline { kind: Kind::Columns, columns: 0, records: at_most(MOST_WALK, c)? },
        [b"skyline", b"steps", c, n] => {
            Line::Skyline { kind: Kind::Steps, columns: number(c)?, records: at_most(MOST_RECORDS, n)? }
        }
        [b"skyline", b"placed", c, n] => {
            Line::Skyline { kind: Kind::Placed, columns: number(c)?, records: at_most(MOST_RECORDS, n)? }
        }
        [b"clear"] => Line::Clear,
        [b"highest", a, b] => Line::Highest(number(a)?, number(b)?),
        [b"raise", a, b, h] => Line::Raise(number(a)?, number(b)?, number(h)?),
        [b"pack", walk, places] => {
            Line::Pack { walk: at_most(MOST_WALK, walk)?, places: at_most(MOST_RECORDS, places)? }
        }
        _ => return None,
    })
}

struct Session {
    plan: Plan,
    trial: bool,
    lists: Lists,
    skyline: Skyline,
}

fn answer(answer: Result<String, Refusal>) -> String {
    answer.unwrap_or_else(|refusal| format!("{refusal}\n"))
}

impl Session {
    fn skyline_line(&self) -> String {
        let (columns, raises, left) = (self.skyline.columns(), self.skyline.raises(), self.skyline.raises_left());
        format!("skyline {columns} {raises} {left}\n")
    }

    fn pack(&mut self, walk: u32, places: u32) -> Result<String, Refusal> {
        let mut places = vec![Placement::default(); places as usize];
        let (width, height) = self.plan.pack(&mut self.skyline, walk as usize, &mut places)?;
        let mut lines = format!("packed {width} {height}\n");
        for (i, Placement { x, y, width, height }) in places[..self.plan.len()].iter().enumerate() {
            let _ = writeln!(lines, "at {i} {x} {y} {width} {height}");
        }
        Ok(lines)
    }

    fn report(&self, block: u16) -> Result<String, Refusal> {
        let report = self.plan.report(block)?;
        let (letter, kept) = (char::from(report.letter), if report.kept { "kept" } else { "broken" });
        Ok(format!("block {} {} {} {} {letter} {kept}\n", report.width, report.height, report.left, report.right))
    }

    fn end_trial(&mut self, word: &str) -> String {
        self.trial = false;
        format!("{word} {}\n", self.plan.kept())
    }

    /// What is printed for a line.
    fn work(&mut self, line: Line) -> String {
        match line {
            Line::Block(size, letter, pair) => {
                self.lists.sizes.push(size);
                self.lists.letters.push(letter);
                self.lists.children.push(pair);
            }
            Line::Size(size) => self.lists.sizes.push(size),
            Line::Letter(letter) => self.lists.letters.push(letter),
            Line::Pair(pair) => self.lists.children.push(pair),
            Line::Load { root, walk } => {
                let lists = std::mem::take(&mut self.lists);
                if self.trial {
                    return "not allowed\n".into();
                }
                let loaded = self.plan.load(&lists, root, walk as usize);
                return answer(loaded.map(|()| format!("loaded {}\n", self.plan.len())));
            }
            Line::Test(_) | Line::Begin(_) if self.trial => return "not allowed\n".into(),
            Line::Keep | Line::Undo if !self.trial => return "not allowed\n".into(),
            Line::Test(edit) => return answer(self.plan.test(edit).map(|()| "allowed\n".into())),
            Line::Begin(edit) => {
                self.trial = true;
                return if self.plan.begin(edit) { "begun\n".into() } else { "begun empty\n".into() };
            }
            Line::Keep => {
                self.plan.keep();
                return self.end_trial("kept");
            }
            Line::Undo => {
                self.plan.undo();
                return self.end_trial("undone");
            }
            Line::Report(block) => return answer(self.report(block)),
            Line::Skyline { kind, columns, records } => {
                self.skyline = Skyline::new(kind, columns, records as usize);
                return self.skyline_line();
            }
            Line::Clear => {
                self.skyline.clear();
                return self.skyline_line();
            }
            Line::Highest(a, b) => return answer(self.skyline.highest(a, b).map(|height| format!("highest {height}\n"))),
            Line::Raise(a, b, h) => {
                let raised = self.skyline.raise(a, b, h);
                return answer(raised.map(|()| self.skyline_line()));
            }
            Line::Pack { walk, places } => {
                let packed = self.pack(walk, places);
                return answer(packed);
            }
        }
        String::new()
    }
}

/// What the program prints for a script.
pub fn run(script: &[u8]) -> String {
    let skyline = Skyline::new(Kind::Columns, 0, 0);
    let mut session = Session { plan: Plan::new(), trial: false, lists: Lists::default(), skyline };
    let mut printed = String::new();
    for (text, at) in script.split_inclusive(|&b| b == b'\n').zip(1..) {
        let text = text.strip_suffix(b"\n").unwrap_or(text);
        let words: Vec<&[u8]> = text.split(|b| b" \t\r".contains(b)).filter(|word| !word.is_empty()).collect();
        match words.first() {
            None | Some([b'#', ..]) => {}
            _ => match line(&words) {
                Some(line) => printed.push_str(&session.work(line)),
                None => _ = writeln!(printed, "line {at}: not understood"),
            },
        }
    }
    printed
}
