//! Times the proved library beside the twin, on the same plans and edits, and tells what memory each uses.

use std::time::{Duration, Instant};

use twin::edits::Edit;
use twin::pack::Placement;
use twin::plan::{Lists, Plan, Side};
use twin::skyline::{Kind, MOST_COLUMNS, Skyline};

use crate::calls::{Call, Order};
use crate::memory;
use crate::numbers::Numbers;
use crate::plans;
use crate::proved;
#[cfg(plots)]
use crate::reading;

const SIZES: [usize; 3] = [49, 200, 512];
const ROUNDS: usize = 60;
const EDITS: usize = 400;
const LOADS: u32 = 400;
#[cfg(plots)]
const PLOTS: usize = 20;
const LONGEST_SIDE: usize = 1_000;
const RECORDS: usize = 1_025;

/// A plan to be timed, and edits of it that are all allowed.
struct Job {
    lists: Lists,
    root: u16,
    gathered: Vec<Order>,
    edits: Vec<Edit>,
    orders: Vec<Order>,
}

fn some_edit(numbers: &mut Numbers, n: usize) -> Edit {
    let i = numbers.below(n) as u16;
    let j = (usize::from(i) + 1 + numbers.below(n - 1)) % n;
    let side = if numbers.percent(50) { Side::Left } else { Side::Right };
    match numbers.below(3) {
        0 => Edit::Turn(i),
        1 => Edit::Swap(i, j as u16),
        _ => Edit::Move(i, j as u16, side),
    }
}

impl Job {
    fn new(n: usize) -> Job {
        let mut numbers = Numbers::new(n as u64);
        let (children, root) = plans::tree(&mut numbers, n, 4);
        let side = |numbers: &mut Numbers| numbers.between(1, LONGEST_SIDE) as u32;
        let sizes = (0..n).map(|_| (side(&mut numbers), side(&mut numbers))).collect();
        let lists = Lists { sizes, letters: vec![b'F'; n], children };
        let sizes = lists.sizes.iter().map(|&(width, height)| Call::Size(width, height));
        let letters = lists.letters.iter().map(|&letter| Call::Letter(letter));
        let pairs = lists.children.iter().map(|&(left, right)| Call::Pair(left, right));
        let gathered = sizes.chain(letters).chain(pairs).map(Call::order).collect();
        let edits: Vec<Edit> = (0..EDITS).map(|_| some_edit(&mut numbers, n)).collect();
        let orders = edits.iter().map(|&edit| Call::Begin(edit).order()).collect();
        Job { lists, root, gathered, edits, orders }
    }

    fn plan(&self) -> Plan {
        let mut plan = Plan::new();
        plan.load(&self.lists, self.root, 512).expect("a sound plan");
        plan
    }

    fn twin_loads(&self) -> u64 {
        let mut plan = Plan::new();
        (0..LOADS).map(|_| plan.load(&self.lists, self.root, 512).map_or(0, |()| plan.len() as u64)).sum()
    }

    fn twin_trials(&self, packs: bool) -> u64 {
        let mut plan = self.plan();
        let mut skyline = Skyline::new(Kind::Steps, MOST_COLUMNS, RECORDS);
        let mut places = vec![Placement::default(); 512];
        let mut sum = 0;
        for &edit in &self.edits {
            plan.begin(edit);
            if packs {
                let (width, height) = plan.pack(&mut skyline, 512, &mut places).expect("a large skyline");
                sum += u64::from(width) + u64::from(height);
            }
            plan.undo();
        }
        sum
    }

    /// The plan's blocks as a .blocks text.
    #[cfg(plots)]
    fn text(&self) -> Vec<u8> {
        let n = self.lists.sizes.len();
        let block = |(i, &(w, h)): (usize, &(u32, u32))| format!("sb{i} hardrectilinear 4 (0, 0) (0, {h}) ({w}, {h}) ({w}, 0)\n");
        let lines: String = self.lists.sizes.iter().enumerate().map(block).collect();
        let counts = format!("NumSoftRectangularBlocks : 0\nNumHardRectilinearBlocks : {n}\nNumTerminals : 0\n");
        format!("UCSC blocks 1.0\n\n{counts}\n{lines}").into_bytes()
    }

    /// The most heap memory that the twin holds at a time, from load to undo.
    fn twin_bytes(&self) -> usize {
        memory::most(|| {
            let mut plan = self.plan();
            let mut skyline = Skyline::new(Kind::Steps, MOST_COLUMNS, RECORDS);
            let mut places = vec![Placement::default(); self.lists.sizes.len()];
            plan.begin(self.edits[0]);
            plan.pack(&mut skyline, 512, &mut places).expect("a large skyline");
            plan.undo();
        })
    }
}

/// How long one call took, and what it answered.
fn timed(call: impl Fn() -> u64) -> (Duration, u64) {
    let start = Instant::now();
    let answer = call();
    (start.elapsed(), answer)
}

/// The fastest of many rounds of each side, in microseconds a call: other programs only ever slow a round down.
fn beside(calls: usize, proved: impl Fn() -> u64, twin: impl Fn() -> u64) -> [f64; 2] {
    let mut fastest = [Duration::MAX; 2];
    for _ in 0..ROUNDS {
        let rounds = [timed(&proved), timed(&twin)];
        assert_eq!(rounds[0].1, rounds[1].1, "the answers differ");
        for (least, (time, _)) in fastest.iter_mut().zip(rounds) {
            *least = time.min(*least);
        }
    }
    fastest.map(|time| time.as_secs_f64() * 1e6 / calls as f64)
}

/// One line a size, and how the time grows: 1 is as the number of blocks, 2 as its square.
fn table(name: &str, jobs: &[Job], measure: impl Fn(&Job) -> [f64; 2]) {
    let times: Vec<[f64; 2]> = jobs.iter().map(measure).collect();
    println!("{name}");
    for (n, [proved, twin]) in SIZES.iter().zip(&times) {
        println!("  {n:3} blocks: proved {proved:8.2} us, twin {twin:8.2} us, ratio {:.2}", proved / twin);
    }
    let growth = |side: usize| {
        let [first, .., last] = &times[..] else { return 0.0 };
        (last[side] / first[side]).ln() / (SIZES[SIZES.len() - 1] as f64 / SIZES[0] as f64).ln()
    };
    println!("  growth with the number of blocks: power {:.2} proved, {:.2} twin", growth(0), growth(1));
}

pub fn print() {
    let jobs: Vec<Job> = SIZES.map(Job::new).into_iter().collect();
    println!("the fastest of {ROUNDS} rounds, for one call; the answers of both sides are the same");
    table("load", &jobs, |job| beside(LOADS as usize, || proved::loads(&job.gathered, job.root, LOADS), || job.twin_loads()));
    table("begin + undo", &jobs, |job| {
        beside(EDITS, || proved::trials(&job.gathered, job.root, &job.orders, false), || job.twin_trials(false))
    });
    table("begin + pack + undo, over steps", &jobs, |job| {
        beside(EDITS, || proved::trials(&job.gathered, job.root, &job.orders, true), || job.twin_trials(true))
    });
    #[cfg(plots)]
    table("plot", &jobs, |job| {
        let text = job.text();
        let plots = |plot: fn(&[u8], &mut [u8]) -> u64| (0..PLOTS).map(|_| plot(&text, &mut [0; 20_000])).sum();
        beside(PLOTS, || plots(reading::plot_proved), || plots(reading::plot_plain))
    });
    println!("memory for load, begin, pack and undo");
    for (n, job) in SIZES.iter().zip(&jobs) {
        println!("  {n:3} blocks: proved {} bytes, twin {} bytes", proved::bytes(*n), job.twin_bytes());
    }
}
