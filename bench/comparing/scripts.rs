//! Random scripts of calls. The twin works each call as it is chosen, so that later calls can fit the plan in hand.

use twin::edits::Edit;
use twin::plan::{Lists, Side};
use twin::skyline::{HIGHEST_TOP, Kind, MOST_COLUMNS};

use crate::calls::{Call, Sky};
use crate::figures::NOT_TOLD;
use crate::numbers::Numbers;
use crate::plain::Desk;
use crate::plans;

/// A script, the number of the refusal of each call (0: none), and the end of its answer among the expected words.
pub struct Script {
    pub sky: Sky,
    pub calls: Vec<Call>,
    pub refusals: Vec<u8>,
    pub ends: Vec<usize>,
    pub expected: Vec<Option<u32>>,
}

struct Writer {
    numbers: Numbers,
    desk: Desk,
    script: Script,
}

fn some_sky(numbers: &mut Numbers, n: usize, reach: u32) -> Sky {
    let kind = numbers.pick(&[Kind::Columns, Kind::Placed, Kind::Steps, Kind::Steps]);
    let near = |numbers: &mut Numbers, x: usize| (x + numbers.below(3)).saturating_sub(1);
    let columns = match numbers.below(8) {
        0 => numbers.below(60) as u32,
        1 => near(numbers, reach as usize) as u32,
        2 => reach + numbers.below(reach as usize + 9) as u32,
        3 => numbers.pick(&[0, 1, MOST_COLUMNS + 1, u32::MAX]),
        _ => MOST_COLUMNS,
    };
    let records = match kind {
        Kind::Columns => (columns as usize).min(numbers.pick(&[60, 1_000, 20_000])),
        Kind::Placed => match numbers.below(8) {
            0 => numbers.below(10),
            1 => near(numbers, n),
            2 => 65_540,
            _ => 512,
        },
        Kind::Steps => match numbers.below(8) {
            0 => numbers.below(10),
            1 => near(numbers, 2 * n + 1),
            2 => numbers.pick(&[1_023, 1_024, 131_080]),
            _ => 1_025,
        },
    };
    Sky { kind, columns, records }
}

impl Writer {
    fn new(mut numbers: Numbers, n: usize, reach: u32) -> Writer {
        let sky = some_sky(&mut numbers, n, reach);
        Writer::over(numbers, sky)
    }

    fn over(numbers: Numbers, sky: Sky) -> Writer {
        let desk = Desk::new(sky);
        let ends = Vec::new();
        Writer { numbers, desk, script: Script { sky, calls: Vec::new(), refusals: Vec::new(), ends, expected: Vec::new() } }
    }

    fn call(&mut self, call: Call) {
        let refusal = self.desk.work(call);
        self.script.calls.push(call);
        self.script.refusals.push(refusal);
        self.script.ends.push(self.desk.out.len());
    }

    fn end(mut self) -> Script {
        self.script.expected = std::mem::take(&mut self.desk.out);
        self.script
    }

    fn load(&mut self, n: usize, faults: usize) {
        let (mut lists, mut root) = plans::sound(&mut self.numbers, n);
        let mut walk = (n + self.numbers.pick(&[0, 0, 1, 40])) as u32;
        for _ in 0..faults {
            plans::damage(&mut self.numbers, &mut lists, &mut root, &mut walk);
        }
        lists.sizes.iter().for_each(|&(width, height)| self.call(Call::Size(width, height)));
        lists.letters.iter().for_each(|&letter| self.call(Call::Letter(letter)));
        lists.children.iter().for_each(|&(left, right)| self.call(Call::Pair(left, right)));
        self.call(Call::Load { root, walk });
    }

    /// A block: mostly one that is present or absent as asked for, at times any number.
    fn block(&mut self, present: bool) -> u16 {
        let n = self.desk.plan.len();
        if self.numbers.percent(8) {
            return self.numbers.pick(&[n as u16, 65_535, 512, 0, 1]);
        }
        let any = self.numbers.below(n);
        let fits = |block: &usize| self.desk.plan.report(*block as u16).is_ok() == present;
        (any..n).chain(0..any).take(if self.numbers.percent(85) { 600 } else { 0 }).find(fits).unwrap_or(any) as u16
    }

    fn edit(&mut self) -> Edit {
        let side = if self.numbers.percent(50) { Side::Left } else { Side::Right };
        let wants_present = self.numbers.percent(88);
        let j = self.block(wants_present);
        match self.numbers.below(10) {
            0 => Edit::Turn(self.block(true)),
            1 | 2 => Edit::Swap(self.block(true), j),
            3 | 4 => Edit::TakeOut(self.block(wants_present)),
            5 | 6 => Edit::PutIn(self.block(false), j, side),
            7 if self.numbers.percent(20) => Edit::Move(j, j, side),
            // Parent and child are the hard case of a swap and of a move.
            7 => match self.desk.plan.report(j) {
                Ok(report) if self.numbers.percent(50) => Edit::Swap(report.left, j),
                Ok(report) => Edit::Swap(j, report.right),
                Err(_) => Edit::Swap(j, j),
            },
            8 => match self.desk.plan.report(j) {
                Ok(report) if self.numbers.percent(50) => Edit::Move(j, report.right, side),
                Ok(report) => Edit::Move(report.left, j, side),
                Err(_) => Edit::Turn(j),
            },
            _ => Edit::Move(self.block(true), j, side),
        }
    }

    fn pack(&mut self) {
        let (n, present) = (self.desk.plan.len(), self.desk.plan.present());
        let walk = match self.numbers.below(10) {
            0 => self.numbers.below(present + 1),
            1 | 2 => present,
            _ => 512,
        };
        let places = match self.numbers.below(10) {
            0 => self.numbers.below(n + 1),
            1 | 2 => n,
            _ => n + 3,
        };
        self.call(Call::Pack { walk: walk as u32, places: places as u32 });
        for _ in 0..self.numbers.below(6) {
            let (a, b) = self.span();
            self.call(Call::Highest(a, b));
        }
    }

    /// A span: mostly one of the skyline's, at times any.
    fn span(&mut self) -> (u32, u32) {
        let columns = self.desk.skyline.columns();
        if self.numbers.percent(6) {
            let ends = [0, 1, columns, columns + 1, u32::MAX, 5];
            return (self.numbers.pick(&ends), self.numbers.pick(&ends));
        }
        let most = (columns as usize).min(self.numbers.pick(&[8, 30, 400, 70_000, 67_108_864]));
        let a = self.numbers.below(most);
        let b = if self.numbers.percent(20) { most } else { a + 1 + self.numbers.below(most - a) };
        (a as u32, b as u32)
    }

    fn skyline_call(&mut self) {
        let (a, b) = self.span();
        match self.numbers.below(40) {
            0 => self.call(Call::Clear),
            1..=12 => self.call(Call::Highest(a, b)),
            _ => {
                let highest = self.desk.skyline.highest(a, b).unwrap_or(0);
                let h = match self.numbers.below(200) {
                    0..=9 => highest.saturating_sub(1 + self.numbers.below(3) as u32),
                    10 => HIGHEST_TOP,
                    11..=13 => HIGHEST_TOP + 1,
                    14..=16 => self.numbers.pick(&[0, u32::MAX]),
                    _ => highest + self.numbers.below(5) as u32,
                };
                self.call(Call::Raise(a, b, h));
            }
        }
    }

    fn settled_call(&mut self) {
        match self.numbers.below(24) {
            0 => {
                let n = plans::block_count(&mut self.numbers).min(60);
                let faults = self.numbers.below(4);
                self.load(n, faults);
            }
            1..=5 => {
                let edit = self.edit();
                self.call(Call::Test(edit));
            }
            6..=15 => {
                let edit = self.edit();
                self.call(Call::Begin(edit));
            }
            _ => self.any_call(),
        }
    }

    fn tried_call(&mut self) {
        match self.numbers.below(8) {
            0..=2 => self.call(Call::Keep),
            3 | 4 => self.call(Call::Undo),
            _ => self.any_call(),
        }
    }

    /// A call that both states allow.
    fn any_call(&mut self) {
        match self.numbers.below(8) {
            0 => {
                let present = self.numbers.percent(60);
                let block = self.block(present);
                self.call(Call::Report(block));
            }
            1 | 2 => self.skyline_call(),
            3 | 4 => self.call(Call::ReportAll),
            _ => self.pack(),
        }
    }
}

/// Loads and edits, with packings and skyline calls between them.
pub fn on_plans(seed: u64) -> Script {
    let mut numbers = Numbers::new(seed);
    let n = plans::block_count(&mut numbers);
    let reach = numbers.pick(&[2, 6, 30, 500, 65_536]) * (n as u32 + 1);
    let mut writer = Writer::new(numbers, n, reach);
    let faults = if writer.numbers.percent(70) { 0 } else { writer.numbers.between(1, 3) };
    writer.load(n, faults);
    for _ in 0..writer.numbers.between(10, 80) {
        if writer.desk.trial { writer.tried_call() } else { writer.settled_call() }
    }
    writer.call(Call::ReportAll);
    writer.pack();
    writer.end()
}

/// One load after the other, most of them damaged.
pub fn on_loads(seed: u64) -> Script {
    let mut writer = Writer::new(Numbers::new(seed), 20, 100);
    for _ in 0..20 {
        let n = plans::block_count(&mut writer.numbers);
        let faults = writer.numbers.below(4);
        writer.load(n, faults);
        if writer.numbers.percent(30) {
            writer.call(Call::ReportAll);
        }
    }
    writer.end()
}

/// Calls on a skyline alone.
pub fn on_skylines(seed: u64) -> Script {
    let mut numbers = Numbers::new(seed);
    let reach = numbers.pick(&[4, 30, 300]);
    let mut writer = Writer::new(numbers, 60, reach);
    for _ in 0..writer.numbers.between(20, 300) {
        writer.skyline_call();
    }
    writer.end()
}

/// Skylines with more memory than C and R can use, all raises used up.
pub fn on_bounds(seed: u64) -> Script {
    let sky = match seed {
        0 => Sky { kind: Kind::Columns, columns: 0, records: MOST_COLUMNS as usize + 1 },
        1 => Sky { kind: Kind::Placed, columns: MOST_COLUMNS + 1, records: 65_537 },
        _ => Sky { kind: Kind::Steps, columns: u32::MAX, records: 131_077 },
    };
    let mut writer = Writer::over(Numbers::new(seed), sky);
    for i in 0..65_540 {
        let a = writer.numbers.below(30) as u32 + if i % 2 == 0 { 0 } else { MOST_COLUMNS - 40 };
        let b = a + 1 + writer.numbers.below(10) as u32;
        let highest = writer.desk.skyline.highest(a, b).expect("a span of the skyline");
        let higher = writer.numbers.below(3) as u32;
        writer.call(Call::Raise(a, b, highest + higher));
    }
    writer.call(Call::Highest(0, MOST_COLUMNS));
    writer.call(Call::Highest(0, MOST_COLUMNS + 1));
    writer.call(Call::Clear);
    (0..100).for_each(|_| writer.skyline_call());
    writer.end()
}

/// The calls of a script on a plan as the twin's lists have them.
fn listed(calls: &[Call]) -> Vec<twin::calls::Call> {
    let mut lists = Lists::default();
    let mut listed = Vec::new();
    for &call in calls {
        match call {
            Call::Size(width, height) => lists.sizes.push((width, height)),
            Call::Letter(byte) => lists.letters.push(byte),
            Call::Pair(left, right) => lists.children.push((left, right)),
            Call::Load { root, walk } => {
                listed.push(twin::calls::Call::Load { lists: std::mem::take(&mut lists), root, walk: walk as usize });
            }
            Call::Test(edit) => listed.push(twin::calls::Call::Test(edit)),
            Call::Begin(edit) => listed.push(twin::calls::Call::Begin(edit)),
            Call::Keep => listed.push(twin::calls::Call::Keep),
            Call::Undo => listed.push(twin::calls::Call::Undo),
            Call::Pack { .. } => listed.push(twin::calls::Call::Pack),
            _ => unreachable!("no call of a list"),
        }
    }
    listed
}

/// The calls of another script on a plan, as one list. At times one is left out or comes twice.
pub fn as_lists(seed: u64) -> Script {
    let Script { sky, mut calls, .. } = on_plans(seed);
    calls.retain(|call| !matches!(call, Call::Report(_) | Call::ReportAll | Call::Clear | Call::Highest(..) | Call::Raise(..)));
    let mut numbers = Numbers::new(seed ^ 0x5555);
    if numbers.percent(30) {
        let place = numbers.below(calls.len());
        if numbers.percent(50) {
            calls.remove(place);
        } else {
            calls.insert(place, calls[place]);
        }
    }
    let load_walk = numbers.pick(&[600, 600, 600, 20, 0]);
    let walk = numbers.pick(&[600, 600, 600, 20, 5]);
    let places = numbers.pick(&[600, 600, 512, 20, 5]);
    let mut desk = Desk::new(sky);
    let (mut refusals, mut ends) = (vec![NOT_TOLD; calls.len()], vec![desk.out.len(); calls.len()]);
    refusals.push(desk.after(&listed(&calls), load_walk, walk, places));
    ends.push(desk.out.len());
    calls.push(Call::After { load_walk, walk, places });
    Script { sky, calls, refusals, ends, expected: desk.out }
}
