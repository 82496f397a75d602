//! The five edits, their tests and what they do to the tree.

use crate::plan::{Plan, Side};
use crate::refusal::{Refusal, refuse_if};

#[derive(Clone, Copy, Debug, PartialEq, Eq)]
pub enum Edit {
    Turn(u16),
    Swap(u16, u16),
    TakeOut(u16),
    PutIn(u16, u16, Side),
    Move(u16, u16, Side),
}

impl Plan {
    pub(crate) fn test_exists(&self, block: u16) -> Result<(), Refusal> {
        refuse_if(usize::from(block) >= self.len(), 9, block.into())
    }

    pub(crate) fn test_present(&self, block: u16) -> Result<(), Refusal> {
        refuse_if(!self.block(block).present, 21, block.into())
    }

    fn test_two(&self, i: u16, j: u16) -> Result<(), Refusal> {
        self.test_exists(i)?;
        self.test_exists(j)?;
        refuse_if(i == j, 10, i.into())?;
        self.test_present(i)?;
        self.test_present(j)
    }

    /// The first refusal of the edit.
    pub fn test(&self, edit: Edit) -> Result<(), Refusal> {
        match edit {
            Edit::Turn(i) | Edit::TakeOut(i) => {
                self.test_exists(i)?;
                self.test_present(i)
            }
            Edit::Swap(i, j) | Edit::Move(i, j, _) => self.test_two(i, j),
            Edit::PutIn(i, j, _) => {
                self.test_exists(i)?;
                refuse_if(self.block(i).present, 22, i.into())?;
                if self.root.is_none() {
                    return Ok(());
                }
                self.test_exists(j)?;
                self.test_present(j)
            }
        }
    }

    /// Performs an edit that passes its tests.
    pub(crate) fn perform(&mut self, edit: Edit) {
        match edit {
            Edit::Turn(i) => {
                let block = self.block_mut(i);
                std::mem::swap(&mut block.width, &mut block.height);
            }
            Edit::Swap(i, j) => self.swap(i, j),
            Edit::TakeOut(i) => self.take_out(i),
            Edit::PutIn(i, j, side) => self.put_in(i, j, side),
            Edit::Move(i, j, side) => {
                self.take_out(i);
                self.put_in(i, j, side);
            }
        }
    }

    fn child(&self, block: u16, side: Side) -> Option<u16> {
        match side {
            Side::Left => self.block(block).left,
            Side::Right => self.block(block).right,
        }
    }

    /// Makes `child` the block's child on that side.
    fn hang(&mut self, block: u16, side: Side, child: Option<u16>) {
        match side {
            Side::Left => self.block_mut(block).left = child,
            Side::Right => self.block_mut(block).right = child,
        }
        if let Some(child) = child {
            self.block_mut(child).parent = Some(block);
        }
    }

    /// The parent of a present block and the side it hangs on; none for the root.
    fn place(&self, block: u16) -> Option<(u16, Side)> {
        let parent = self.block(block).parent?;
        let side = if self.block(parent).left == Some(block) { Side::Left } else { Side::Right };
        Some((parent, side))
    }

    fn fill(&mut self, place: Option<(u16, Side)>, block: Option<u16>) {
        match place {
            Some((parent, side)) => self.hang(parent, side, block),
            None => {
                self.root = block;
                if let Some(block) = block {
                    self.block_mut(block).parent = None;
                }
            }
        }
    }

    fn swap(&mut self, i: u16, j: u16) {
        let (place_i, place_j) = (self.place(i), self.place(j));
        let (left_i, right_i) = (self.child(i, Side::Left), self.child(i, Side::Right));
        let (left_j, right_j) = (self.child(j, Side::Left), self.child(j, Side::Right));
        // A link from one of the two to the other now leads from the other to the one.
        let other = |block: u16| match block {
            _ if block == i => j,
            _ if block == j => i,
            _ => block,
        };
        let place = |place: Option<(u16, Side)>| place.map(|(parent, side)| (other(parent), side));
        self.hang(i, Side::Left, left_j.map(other));
        self.hang(i, Side::Right, right_j.map(other));
        self.hang(j, Side::Left, left_i.map(other));
        self.hang(j, Side::Right, right_i.map(other));
        self.fill(place(place_j), Some(i));
        self.fill(place(place_i), Some(j));
    }

    fn take_out(&mut self, i: u16) {
        // While it has two children, the right child takes its place, and it the right child's.
        while let (Some(_), Some(right)) = (self.child(i, Side::Left), self.child(i, Side::Right)) {
            self.swap(i, right);
        }
        let child = self.child(i, Side::Left).or(self.child(i, Side::Right));
        self.fill(self.place(i), child);
        let block = self.block_mut(i);
        block.present = false;
        (block.parent, block.left, block.right) = (None, None, None);
    }

    fn put_in(&mut self, i: u16, j: u16, side: Side) {
        self.block_mut(i).present = true;
        if self.root.is_none() {
            self.root = Some(i);
            return;
        }
        let former = self.child(j, side);
        self.hang(i, side, former);
        self.hang(j, side, Some(i));
    }
}
