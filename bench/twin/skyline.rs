//! Skylines: a contour of segments from left to right. The three kinds differ in C and R only.

use crate::refusal::{Refusal, refuse_if};

pub const MOST_COLUMNS: u32 = 67_108_864;
pub const MOST_RAISES: u32 = 65_536;
pub const HIGHEST_TOP: u32 = 134_217_728;

#[derive(Clone, Copy, Debug, PartialEq, Eq)]
pub enum Kind {
    Columns,
    Placed,
    Steps,
}

/// A segment starts behind the one before it, or at 0, and ends before `end`.
#[derive(Clone, Copy, Debug)]
struct Segment {
    end: u32,
    top: u32,
}

pub struct Skyline {
    columns: u32,
    raises: u32,
    raises_left: u32,
    contour: Vec<Segment>,
}

impl Skyline {
    /// A skyline of a kind over so many records of memory. `columns` is told to all kinds but the first.
    pub fn new(kind: Kind, columns: u32, records: usize) -> Skyline {
        let (columns, raises) = match kind {
            _ if records == 0 => (0, 0),
            Kind::Columns => (u32::try_from(records).unwrap_or(u32::MAX), MOST_RAISES),
            Kind::Placed => (columns, u32::try_from(records).unwrap_or(u32::MAX)),
            Kind::Steps => (columns, u32::try_from((records - 1) / 2).unwrap_or(u32::MAX)),
        };
        let (columns, raises) = (columns.min(MOST_COLUMNS), raises.min(MOST_RAISES));
        let mut skyline = Skyline { columns, raises, raises_left: 0, contour: Vec::new() };
        skyline.clear();
        skyline
    }

    pub fn columns(&self) -> u32 {
        self.columns
    }

    pub fn raises(&self) -> u32 {
        self.raises
    }

    pub fn raises_left(&self) -> u32 {
        self.raises_left
    }

    pub fn clear(&mut self) {
        self.contour.clear();
        self.contour.push(Segment { end: self.columns, top: 0 });
        self.raises_left = self.raises;
    }

    /// The segments that meet a span: the first, one past the last, and the largest top of them.
    fn meet(&self, a: u32, b: u32) -> (usize, usize, u32) {
        let first = self.contour.partition_point(|segment| segment.end <= a);
        let mut highest = self.contour[first].top;
        let mut last = first;
        while self.contour[last].end < b {
            last += 1;
            highest = highest.max(self.contour[last].top);
        }
        (first, last + 1, highest)
    }

    fn test_span(&self, a: u32, b: u32) -> Result<(), Refusal> {
        refuse_if(a >= b || b > self.columns, 11, 0)
    }

    pub fn highest(&self, a: u32, b: u32) -> Result<u32, Refusal> {
        self.test_span(a, b)?;
        Ok(self.meet(a, b).2)
    }

    pub fn raise(&mut self, a: u32, b: u32, h: u32) -> Result<(), Refusal> {
        self.test_span(a, b)?;
        refuse_if(h > HIGHEST_TOP, 12, 0)?;
        let (first, past, highest) = self.meet(a, b);
        refuse_if(h < highest, 23, 0)?;
        refuse_if(self.raises_left == 0, 24, 0)?;
        self.replace(first, past, a, Segment { end: b, top: h });
        self.raises_left -= 1;
        Ok(())
    }

    /// Lets a block down on a span that lies in the skyline, and answers its y. A raise is left.
    pub(crate) fn let_down(&mut self, a: u32, b: u32, height: u32) -> u32 {
        let (first, past, y) = self.meet(a, b);
        self.replace(first, past, a, Segment { end: b, top: y + height });
        self.raises_left -= 1;
        y
    }

    /// Puts a segment from `a` on in place of those it meets, which lose what lies under it.
    fn replace(&mut self, first: usize, past: usize, a: u32, segment: Segment) {
        let start = if first == 0 { 0 } else { self.contour[first - 1].end };
        let before = (start < a).then_some(Segment { end: a, top: self.contour[first].top });
        let last = self.contour[past - 1];
        let behind = (segment.end < last.end).then_some(last);
        self.contour.splice(first..past, before.into_iter().chain([segment]).chain(behind));
    }
}
