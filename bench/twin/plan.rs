//! Plans: blocks linked to a tree, load, report and trials.

use std::ops::RangeInclusive;

use crate::edits::Edit;
use crate::letters::Letter;
use crate::refusal::{Refusal, refuse_if};

pub const MOST_BLOCKS: usize = 512;
/// The sides that a block can have.
pub const SIDES: RangeInclusive<u32> = 1..=131_072;
/// The number that stands for no block.
pub const NONE: u16 = 65_535;

#[derive(Clone, Copy, Debug, PartialEq, Eq)]
pub enum Side {
    Left,
    Right,
}

#[derive(Clone, Copy, Debug)]
pub struct Block {
    pub width: u32,
    pub height: u32,
    pub letter: Letter,
    pub present: bool,
    pub parent: Option<u16>,
    pub left: Option<u16>,
    pub right: Option<u16>,
}

#[derive(Clone, Copy, Debug, PartialEq, Eq)]
pub struct Report {
    pub width: u32,
    pub height: u32,
    pub left: u16,
    pub right: u16,
    pub letter: u8,
    pub kept: bool,
}

/// What a trial needs to be undone.
#[derive(Default)]
enum Trial {
    #[default]
    Closed,
    Empty,
    Open,
}

#[derive(Default)]
pub struct Plan {
    pub(crate) blocks: Vec<Block>,
    pub(crate) root: Option<u16>,
    trial: Trial,
    saved_blocks: Vec<Block>,
    saved_root: Option<u16>,
    kept: u32,
}

/// The lists of a load.
#[derive(Clone, Debug, Default)]
pub struct Lists {
    pub sizes: Vec<(u32, u32)>,
    pub letters: Vec<u8>,
    pub children: Vec<(u16, u16)>,
}

fn link(number: u16) -> Option<u16> {
    (number != NONE).then_some(number)
}

impl Lists {
    fn first(&self, test: impl Fn(usize) -> bool, number: u8) -> Result<(), Refusal> {
        match (0..self.sizes.len()).find(|&block| test(block)) {
            Some(block) => Err(Refusal { number, place: block as u32 }),
            None => Ok(()),
        }
    }

    /// How often each block is named, as a child or as the root.
    fn named(&self, root: u16) -> Vec<u32> {
        let mut named = vec![0; self.sizes.len()];
        let children = self.children.iter().flat_map(|&(left, right)| [left, right]);
        for block in children.chain([root]).filter_map(link) {
            named[usize::from(block)] += 1;
        }
        named
    }

    /// Whether a path of links leads from the root to each block. The links spell trees.
    fn reached(&self, root: u16) -> Vec<bool> {
        let mut reached = vec![false; self.sizes.len()];
        let mut stack: Vec<u16> = link(root).into_iter().collect();
        while let Some(block) = stack.pop() {
            reached[usize::from(block)] = true;
            let (left, right) = self.children[usize::from(block)];
            stack.extend([left, right].into_iter().filter_map(link));
        }
        reached
    }

    /// The tests of load, in their order.
    fn test(&self, root: u16, walk: usize) -> Result<(), Refusal> {
        let n = self.sizes.len();
        refuse_if(n > MOST_BLOCKS, 1, 0)?;
        refuse_if(self.letters.len() != n || self.children.len() != n, 2, 0)?;
        refuse_if(walk < n, 18, 0)?;
        self.first(|b| !SIDES.contains(&self.sizes[b].0) || !SIDES.contains(&self.sizes[b].1), 3)?;
        self.first(|b| Letter::from_byte(self.letters[b]).is_none(), 4)?;
        let wrong_child = |child: u16| child != NONE && usize::from(child) >= n;
        self.first(|b| wrong_child(self.children[b].0) || wrong_child(self.children[b].1), 5)?;
        refuse_if(if n == 0 { root != NONE } else { usize::from(root) >= n }, 6, 0)?;
        let named = self.named(root);
        self.first(|b| named[b] > 1, 7)?;
        let reached = self.reached(root);
        self.first(|b| !reached[b], 8)
    }
}

impl Plan {
    pub fn new() -> Plan {
        Plan::default()
    }

    pub fn len(&self) -> usize {
        self.blocks.len()
    }

    pub fn is_empty(&self) -> bool {
        self.blocks.is_empty()
    }

    pub fn present(&self) -> usize {
        self.blocks.iter().filter(|block| block.present).count()
    }

    pub fn root(&self) -> u16 {
        self.root.unwrap_or(NONE)
    }

    /// How many trials that were not empty have been kept since load.
    pub fn kept(&self) -> u32 {
        self.kept
    }

    pub(crate) fn block(&self, block: u16) -> &Block {
        &self.blocks[usize::from(block)]
    }

    pub(crate) fn block_mut(&mut self, block: u16) -> &mut Block {
        &mut self.blocks[usize::from(block)]
    }

    /// Replaces the plan by the lists. `walk` is the number of walk records lent.
    pub fn load(&mut self, lists: &Lists, root: u16, walk: usize) -> Result<(), Refusal> {
        assert!(matches!(self.trial, Trial::Closed), "a trial is open");
        lists.test(root, walk)?;
        self.blocks.clear();
        for ((&(width, height), &letter), &(left, right)) in lists.sizes.iter().zip(&lists.letters).zip(&lists.children) {
            let letter = Letter::from_byte(letter).expect("tested");
            let (left, right) = (link(left), link(right));
            self.blocks.push(Block { width, height, letter, present: true, parent: None, left, right });
        }
        for block in 0..self.blocks.len() {
            let Block { left, right, .. } = self.blocks[block];
            for child in [left, right].into_iter().flatten() {
                self.block_mut(child).parent = Some(block as u16);
            }
        }
        self.root = link(root);
        self.kept = 0;
        Ok(())
    }

    /// 9 if there is no such block, 21 if it is absent.
    pub fn report(&self, block: u16) -> Result<Report, Refusal> {
        self.test_exists(block)?;
        self.test_present(block)?;
        let Block { width, height, letter, left, right, .. } = *self.block(block);
        Ok(Report {
            width,
            height,
            left: left.unwrap_or(NONE),
            right: right.unwrap_or(NONE),
            letter: letter.byte(),
            kept: self.keeps_letter(block),
        })
    }

    /// Begins a trial, which is empty if the edit would be refused. Answers whether it is not.
    pub fn begin(&mut self, edit: Edit) -> bool {
        assert!(matches!(self.trial, Trial::Closed), "a trial is open");
        let allowed = self.test(edit).is_ok();
        self.trial = if allowed { Trial::Open } else { Trial::Empty };
        if allowed {
            self.saved_blocks.clone_from(&self.blocks);
            self.saved_root = self.root;
            self.perform(edit);
        }
        allowed
    }

    pub fn keep(&mut self) {
        match std::mem::take(&mut self.trial) {
            Trial::Closed => panic!("no trial is open"),
            Trial::Empty => {}
            Trial::Open => self.kept = self.kept.saturating_add(1),
        }
    }

    pub fn undo(&mut self) {
        match std::mem::take(&mut self.trial) {
            Trial::Closed => panic!("no trial is open"),
            Trial::Empty => {}
            Trial::Open => {
                std::mem::swap(&mut self.blocks, &mut self.saved_blocks);
                self.root = self.saved_root;
            }
        }
    }
}
