//! Random plans, sound and damaged.

use twin::plan::{Lists, NONE};

use crate::numbers::Numbers;

const LETTERS: &[u8] = b"FTBLR";

/// The child pairs of a random tree of n blocks with random numbers, and its root. Of 16 blocks so many hang under the one before.
pub fn tree(numbers: &mut Numbers, n: usize, in_a_row: usize) -> (Vec<(u16, u16)>, u16) {
    let mut names: Vec<u16> = (0..n as u16).collect();
    numbers.shuffle(&mut names);
    let mut children = vec![(NONE, NONE); n];
    let Some(&root) = names.first() else { return (children, NONE) };
    let right_first = numbers.percent(50);
    let sides = |block: u16| [(block, right_first), (block, !right_first)];
    let mut free: Vec<(u16, bool)> = sides(root).to_vec();
    for &block in &names[1..] {
        let any = if numbers.below(16) < in_a_row { free.len() - 1 } else { numbers.below(free.len()) };
        let (parent, left) = free.swap_remove(any);
        let pair = &mut children[usize::from(parent)];
        *(if left { &mut pair.0 } else { &mut pair.1 }) = block;
        free.extend(sides(block));
    }
    (children, root)
}

/// How many blocks the plan of a script has.
pub fn block_count(numbers: &mut Numbers) -> usize {
    match numbers.below(20) {
        0..=4 => numbers.below(6),
        5..=13 => numbers.between(2, 24),
        14..=17 => numbers.between(25, 100),
        18 => numbers.between(100, 511),
        _ => 512,
    }
}

/// A plan of n blocks that passes all tests.
pub fn sound(numbers: &mut Numbers, n: usize) -> (Lists, u16) {
    let longest = numbers.pick(&[3, 3, 9, 9, 40, 1_000, 131_072]);
    let shortest = if numbers.percent(5) { longest } else { 1 };
    let in_a_row = numbers.pick(&[0, 0, 8, 14, 16]);
    let (children, root) = tree(numbers, n, in_a_row);
    let letters = if numbers.percent(30) { &LETTERS[1..][..numbers.between(1, 4)] } else { LETTERS };
    let lists = Lists {
        sizes: (0..n).map(|_| (numbers.between(shortest, longest) as u32, numbers.between(shortest, longest) as u32)).collect(),
        letters: (0..n).map(|_| numbers.pick(letters)).collect(),
        children,
    };
    (lists, root)
}

fn wrong_side(numbers: &mut Numbers) -> u32 {
    numbers.pick(&[0, 131_073, 131_074, 1_000_000, u32::MAX])
}

fn any_link(numbers: &mut Numbers, n: usize) -> u16 {
    match numbers.below(10) {
        0 => n as u16,
        1 => 65_534,
        2 => 512,
        3 => NONE,
        _ => numbers.below(n) as u16,
    }
}

/// Puts one fault into a plan. Some leave it sound.
pub fn damage(numbers: &mut Numbers, lists: &mut Lists, root: &mut u16, walk: &mut u32) {
    let n = lists.sizes.len();
    let block = numbers.below(n);
    match numbers.below(16) {
        0 if numbers.percent(30) => lists.sizes.push((1, 1)),
        1 if numbers.percent(30) => drop(lists.letters.pop()),
        2 if numbers.percent(30) => lists.children.push((NONE, NONE)),
        3 if numbers.percent(50) => *walk = numbers.below(n + 1) as u32,
        4 => *root = any_link(numbers, n),
        5 if numbers.percent(20) => lists.sizes.resize(numbers.between(512, 520), (0, 1)),
        5 if numbers.percent(50) => {
            lists.sizes.resize(513, (1, 1));
            lists.letters.resize(513, b'F');
            lists.children.resize(513, (NONE, NONE));
        }
        _ if n == 0 || lists.letters.len() < n || lists.children.len() < n => {}
        6 => lists.sizes[block].0 = wrong_side(numbers),
        7 => lists.sizes[block].1 = wrong_side(numbers),
        8 => lists.letters[block] = numbers.below(256) as u8,
        9 => lists.letters[block] = numbers.pick(LETTERS).to_ascii_lowercase(),
        10 => lists.children[block].0 = any_link(numbers, n),
        11 => lists.children[block].1 = any_link(numbers, n),
        12 => lists.children.swap(block, numbers.below(n)),
        13 => *root = block as u16,
        14 => lists.children[block].0 = block as u16,
        // A subtree is cut off and tied to a ring.
        _ => {
            let cut = lists.children[block].0;
            if usize::from(cut) < n {
                lists.children[block].0 = NONE;
                let mut last = cut;
                while usize::from(lists.children[usize::from(last)].1) < n {
                    last = lists.children[usize::from(last)].1;
                    if last == cut {
                        return;
                    }
                }
                lists.children[usize::from(last)].1 = cut;
            }
        }
    }
}
