// Times the skyline of runs beside two plain contour lists, on the same blocks: 512 a plan, in the order and with the left edges
// of a packing.
use std::time::{Duration, Instant};

const BLOCKS: usize = 512;
const PLANS: usize = 64;
const ROUNDS: usize = 200;
const COLUMNS: u32 = 67_108_864;
const LONGEST_SIDE: usize = 1_000;

/// A block's span and height.
#[repr(C)]
#[derive(Clone, Copy)]
struct Block {
    left: u32,
    right: u32,
    height: u32,
}

unsafe extern "C" {
    fn steps_place(blocks: *const Block, count: usize) -> u64;
}

/// The skyline of runs: the sum of all y.
fn proved(blocks: &[Block]) -> u64 {
    // SAFETY: a slice crosses as a pointer and a length, and the callee is proved to stay inside it.
    unsafe { steps_place(blocks.as_ptr(), blocks.len()) }
}

/// A contour that blocks are put on, one after the other.
trait Contour {
    fn clear(&mut self);

    /// Puts the block on the contour and answers its y.
    fn place(&mut self, block: Block) -> u32;

    /// The sum of all y.
    fn place_all(&mut self, blocks: &[Block]) -> u64 {
        let mut sum = 0;
        for plan in blocks.chunks(BLOCKS) {
            self.clear();
            for block in plan {
                sum += u64::from(self.place(*block));
            }
        }
        sum
    }
}

#[derive(Clone, Copy)]
struct Segment {
    start: u32,
    end: u32,
    top: u32,
}

const FLOOR: Segment = Segment { start: 0, end: COLUMNS, top: 0 };

/// Segments from left to right in a vector, with the first of a span found by a binary search.
struct Vector(Vec<Segment>);

impl Contour for Vector {
    fn clear(&mut self) {
        self.0.clear();
        self.0.push(FLOOR);
    }

    fn place(&mut self, block: Block) -> u32 {
        let first = self.0.partition_point(|s| s.end <= block.left);
        let mut past = first;
        let mut y = 0;
        while past < self.0.len() && self.0[past].start < block.right {
            y = y.max(self.0[past].top);
            past += 1;
        }
        let before = Segment { end: block.left, ..self.0[first] };
        let behind = Segment { start: block.right, ..self.0[past - 1] };
        let raised = Segment { start: block.left, end: block.right, top: y + block.height };
        let pieces = [before, raised, behind];
        let from = usize::from(before.start == before.end);
        let to = 3 - usize::from(behind.start == behind.end);
        self.0.splice(first..past, pieces[from..to].iter().copied());
        y
    }
}

/// Segments in a linked list, walked from the left. The links are places in `nodes`.
struct Linked {
    nodes: Vec<(Segment, usize)>,
    free: Vec<usize>,
    head: usize,
}

const NONE: usize = usize::MAX;

impl Linked {
    fn add(&mut self, segment: Segment, next: usize) -> usize {
        if segment.start == segment.end {
            return next;
        }
        match self.free.pop() {
            Some(place) => {
                self.nodes[place] = (segment, next);
                place
            }
            None => {
                self.nodes.push((segment, next));
                self.nodes.len() - 1
            }
        }
    }
}

impl Contour for Linked {
    fn clear(&mut self) {
        self.nodes.clear();
        self.free.clear();
        self.head = self.add(FLOOR, NONE);
    }

    fn place(&mut self, block: Block) -> u32 {
        let (mut previous, mut at) = (NONE, self.head);
        while self.nodes[at].0.end <= block.left {
            (previous, at) = (at, self.nodes[at].1);
        }
        let before = Segment { end: block.left, ..self.nodes[at].0 };
        let mut y = 0;
        let (last, next) = loop {
            let (segment, next) = self.nodes[at];
            y = y.max(segment.top);
            self.free.push(at);
            if segment.end >= block.right {
                break (segment, next);
            }
            at = next;
        };
        let behind = self.add(Segment { start: block.right, ..last }, next);
        let raised = self.add(Segment { start: block.left, end: block.right, top: y + block.height }, behind);
        let new = self.add(before, raised);
        match previous {
            NONE => self.head = new,
            _ => self.nodes[previous].1 = new,
        }
        y
    }
}

/// A small generator of numbers with a fixed seed.
struct Numbers(u64);

impl Numbers {
    fn below(&mut self, n: usize) -> usize {
        self.0 = self.0.wrapping_mul(6364136223846793005).wrapping_add(1442695040888963407);
        (self.0 >> 33) as usize % n
    }
}

/// A tree in depth-first order with left edges. Of 16 blocks so many hang under the left side of the one before, the others under
/// any side that is free.
fn plan(numbers: &mut Numbers, in_a_row: usize) -> Vec<Block> {
    let mut children = vec![[None, None]; BLOCKS];
    let mut free: Vec<(usize, usize)> = vec![(0, 1), (0, 0)];
    for block in 1..BLOCKS {
        let any = if numbers.below(16) < in_a_row { free.len() - 1 } else { numbers.below(free.len()) };
        let (parent, side) = free.swap_remove(any);
        children[parent][side] = Some(block);
        free.extend([(block, 1), (block, 0)]);
    }
    let mut order = Vec::with_capacity(BLOCKS);
    let mut stack = vec![(0, 0)];
    while let Some((block, left)) = stack.pop() {
        let right = left + 1 + numbers.below(LONGEST_SIDE) as u32;
        let height = 1 + numbers.below(LONGEST_SIDE) as u32;
        order.push(Block { left, right, height });
        let [first, second] = children[block];
        stack.extend(second.map(|child| (child, left)));
        stack.extend(first.map(|child| (child, right)));
    }
    order
}

/// How long one call took, and what it answered.
fn timed(call: impl FnOnce() -> u64) -> (Duration, u64) {
    let start = Instant::now();
    let sum = call();
    (start.elapsed(), sum)
}

/// The fastest round, in microseconds a plan: other programs only ever slow a round down.
fn fastest(times: Vec<Duration>) -> f64 {
    times.into_iter().min().unwrap_or_default().as_secs_f64() * 1e6 / PLANS as f64
}

fn compare(name: &str, blocks: &[Block]) {
    let mut vector = Vector(Vec::new());
    let mut linked = Linked { nodes: Vec::new(), free: Vec::new(), head: 0 };
    let mut times = [Vec::new(), Vec::new(), Vec::new()];
    for _ in 0..ROUNDS {
        let rounds = [
            timed(|| proved(blocks)),
            timed(|| vector.place_all(blocks)),
            timed(|| linked.place_all(blocks)),
        ];
        for (all, (time, sum)) in times.iter_mut().zip(rounds) {
            assert_eq!(sum, rounds[0].1, "the answers differ");
            all.push(time);
        }
    }
    let [steps, vector, linked] = times.map(fastest);
    println!(
        "{name}: steps {steps:.1} us; vector {vector:.1} us, ratio {:.2}; linked {linked:.1} us, ratio {:.2}",
        steps / vector,
        steps / linked
    );
}

fn main() {
    println!("{PLANS} plans of {BLOCKS} blocks, {ROUNDS} rounds; the fastest, for one plan");
    for (name, in_a_row) in [("random trees", 0), ("wide trees", 12), ("very wide trees", 15)] {
        let mut numbers = Numbers(1);
        let blocks: Vec<Block> = (0..PLANS).flat_map(|_| plan(&mut numbers, in_a_row)).collect();
        compare(name, &blocks);
    }
}
