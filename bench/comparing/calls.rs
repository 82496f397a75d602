//! Calls, as the harness makes them on both sides. They print in the language of the program `session`.

use std::fmt;

use twin::edits::Edit;
use twin::plan::Side;
use twin::skyline::Kind;

/// A call as it crosses to the proved library.
#[repr(C)]
#[derive(Clone, Copy)]
pub struct Order {
    pub call: u32,
    pub a: u32,
    pub b: u32,
    pub c: u32,
    pub d: u32,
}

#[derive(Clone, Copy, Debug)]
pub enum Call {
    Size(u32, u32),
    Letter(u8),
    Pair(u16, u16),
    Load {
        root: u16,
        walk: u32,
    },
    Test(Edit),
    Begin(Edit),
    Keep,
    Undo,
    Report(u16),
    Clear,
    Highest(u32, u32),
    Raise(u32, u32, u32),
    Pack {
        walk: u32,
        places: u32,
    },
    /// The root, and the report of each block.
    ReportAll,
    /// All calls before this one as one list, with so many records lent, and then a packing.
    After {
        load_walk: u32,
        walk: u32,
        places: u32,
    },
}

/// The skyline of a script.
#[derive(Clone, Copy, Debug)]
pub struct Sky {
    pub kind: Kind,
    pub columns: u32,
    pub records: usize,
}

impl Sky {
    pub fn kind_number(&self) -> u32 {
        match self.kind {
            Kind::Columns => 0,
            Kind::Placed => 1,
            Kind::Steps => 2,
        }
    }
}

fn edit_order(call: u32, edit: Edit) -> Order {
    let side = |side| if side == Side::Left { 0 } else { 1 };
    let (a, i, j, d) = match edit {
        Edit::Turn(i) => (0, i, 0, 0),
        Edit::Swap(i, j) => (1, i, j, 0),
        Edit::TakeOut(i) => (2, i, 0, 0),
        Edit::PutIn(i, j, s) => (3, i, j, side(s)),
        Edit::Move(i, j, s) => (4, i, j, side(s)),
    };
    Order { call, a, b: i.into(), c: j.into(), d }
}

impl Call {
    pub fn order(self) -> Order {
        let order = |call, a, b, c| Order { call, a, b, c, d: 0 };
        match self {
            Call::Size(width, height) => order(0, width, height, 0),
            Call::Letter(byte) => order(1, byte.into(), 0, 0),
            Call::Pair(left, right) => order(2, left.into(), right.into(), 0),
            Call::Load { root, walk } => order(3, root.into(), walk, 0),
            Call::Test(edit) => edit_order(4, edit),
            Call::Begin(edit) => edit_order(5, edit),
            Call::Keep => order(6, 0, 0, 0),
            Call::Undo => order(7, 0, 0, 0),
            Call::Report(block) => order(8, block.into(), 0, 0),
            Call::Clear => order(9, 0, 0, 0),
            Call::Highest(a, b) => order(10, a, b, 0),
            Call::Raise(a, b, h) => order(11, a, b, h),
            Call::Pack { walk, places } => order(12, walk, places, 0),
            Call::ReportAll => order(13, 0, 0, 0),
            Call::After { load_walk, walk, places } => order(14, load_walk, walk, places),
        }
    }

    /// Calls that only gather lists answer nothing and are not counted.
    pub fn gathers(self) -> bool {
        matches!(self, Call::Size(..) | Call::Letter(_) | Call::Pair(..))
    }
}

fn write_edit(f: &mut fmt::Formatter, edit: Edit) -> fmt::Result {
    let name = |side| if side == Side::Left { "left" } else { "right" };
    match edit {
        Edit::Turn(i) => write!(f, "turn {i}"),
        Edit::Swap(i, j) => write!(f, "swap {i} {j}"),
        Edit::TakeOut(i) => write!(f, "out {i}"),
        Edit::PutIn(i, j, side) => write!(f, "in {i} {j} {}", name(side)),
        Edit::Move(i, j, side) => write!(f, "move {i} {j} {}", name(side)),
    }
}

impl fmt::Display for Call {
    fn fmt(&self, f: &mut fmt::Formatter) -> fmt::Result {
        match *self {
            Call::Size(width, height) => write!(f, "size {width} {height}"),
            Call::Letter(byte) => write!(f, "letter {}", byte.escape_ascii()),
            Call::Pair(left, right) => write!(f, "pair {left} {right}"),
            Call::Load { root, walk } => write!(f, "load {root} {walk}"),
            Call::Test(edit) => f.write_str("test ").and_then(|()| write_edit(f, edit)),
            Call::Begin(edit) => f.write_str("begin ").and_then(|()| write_edit(f, edit)),
            Call::Keep => write!(f, "keep"),
            Call::Undo => write!(f, "undo"),
            Call::Report(block) => write!(f, "report {block}"),
            Call::Clear => write!(f, "clear"),
            Call::Highest(a, b) => write!(f, "highest {a} {b}"),
            Call::Raise(a, b, h) => write!(f, "raise {a} {b} {h}"),
            Call::Pack { walk, places } => write!(f, "pack {walk} {places}"),
            Call::ReportAll => write!(f, "# report each block"),
            Call::After { load_walk, walk, places } => {
                write!(f, "# all of this as one list: {load_walk} walk records for loads, then pack {walk} {places}")
            }
        }
    }
}

impl fmt::Display for Sky {
    fn fmt(&self, f: &mut fmt::Formatter) -> fmt::Result {
        let Sky { kind, columns, records } = self;
        match kind {
            Kind::Columns => write!(f, "skyline columns {records}"),
            Kind::Placed => write!(f, "skyline placed {columns} {records}"),
            Kind::Steps => write!(f, "skyline steps {columns} {records}"),
        }
    }
}
