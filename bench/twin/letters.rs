//! Boundary letters and when they are kept.

use crate::plan::Plan;

#[derive(Clone, Copy, Debug, PartialEq, Eq)]
pub enum Letter {
    Free,
    Top,
    Bottom,
    Left,
    Right,
}

impl Letter {
    pub fn from_byte(byte: u8) -> Option<Letter> {
        match byte {
            b'F' => Some(Letter::Free),
            b'T' => Some(Letter::Top),
            b'B' => Some(Letter::Bottom),
            b'L' => Some(Letter::Left),
            b'R' => Some(Letter::Right),
            _ => None,
        }
    }

    pub fn byte(self) -> u8 {
        match self {
            Letter::Free => b'F',
            Letter::Top => b'T',
            Letter::Bottom => b'B',
            Letter::Left => b'L',
            Letter::Right => b'R',
        }
    }
}

impl Plan {
    fn left_of(&self, block: u16) -> Option<u16> {
        self.block(block).left
    }

    fn right_of(&self, block: u16) -> Option<u16> {
        self.block(block).right
    }

    /// A block and its successive left children.
    fn leftwards(&self, from: Option<u16>) -> impl Iterator<Item = u16> {
        std::iter::successors(from, |&block| self.left_of(block))
    }

    /// A block and its successive right children.
    fn rightwards(&self, from: Option<u16>) -> impl Iterator<Item = u16> {
        std::iter::successors(from, |&block| self.right_of(block))
    }

    /// Whether a present block's letter is kept.
    pub(crate) fn keeps_letter(&self, block: u16) -> bool {
        match self.block(block).letter {
            Letter::Free => true,
            Letter::Bottom => self.leftwards(self.root).any(|b| b == block),
            Letter::Left => self.rightwards(self.root).any(|b| b == block),
            Letter::Right => {
                let bottom_left: Vec<u16> = self.rightwards(self.leftwards(self.root).last()).collect();
                bottom_left.contains(&block) && bottom_left.iter().all(|&b| self.left_of(b).is_none())
            }
            Letter::Top => {
                let bottom_right: Vec<u16> = self.leftwards(self.rightwards(self.root).last()).collect();
                bottom_right.contains(&block) && bottom_right.iter().all(|&b| self.right_of(b).is_none())
            }
        }
    }
}
