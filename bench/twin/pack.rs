//! Packing: the blocks in depth-first order, each let down on a skyline.

use crate::plan::Plan;
use crate::refusal::{Refusal, refuse_if};
use crate::skyline::{HIGHEST_TOP, Skyline};

#[derive(Clone, Copy, Debug, Default, PartialEq, Eq)]
pub struct Placement {
    pub x: u32,
    pub y: u32,
    pub width: u32,
    pub height: u32,
}

impl Plan {
    /// Calls `visit` for each present block with its left edge, in depth-first order.
    fn walk(&self, mut visit: impl FnMut(u16, u32)) {
        let mut stack: Vec<(u16, u32)> = self.root.map(|root| (root, 0)).into_iter().collect();
        while let Some((number, x)) = stack.pop() {
            visit(number, x);
            let block = self.block(number);
            stack.extend(block.right.map(|right| (right, x)));
            stack.extend(block.left.map(|left| (left, x + block.width)));
        }
    }

    fn reach(&self) -> u32 {
        let mut reach = 0;
        self.walk(|block, x| reach = reach.max(x + self.block(block).width));
        reach
    }

    /// Packs the plan over a skyline and answers its width and height. `walk` is the number of walk records lent.
    pub fn pack(&self, skyline: &mut Skyline, walk: usize, places: &mut [Placement]) -> Result<(u32, u32), Refusal> {
        let present = self.present();
        refuse_if(walk < present || places.len() < self.len(), 18, 0)?;
        let reach = self.reach();
        refuse_if(reach > skyline.columns(), 26, 0)?;
        refuse_if(present > skyline.raises() as usize, 27, 0)?;
        skyline.clear();
        places[..self.len()].fill(Placement::default());
        let mut plan_height = 0;
        self.walk(|number, x| {
            let block = self.block(number);
            let y = skyline.let_down(x, x + block.width, block.height);
            let top = y + block.height;
            assert!(top <= HIGHEST_TOP, "25 never holds");
            places[usize::from(number)] = Placement { x, y, width: block.width, height: block.height };
            plan_height = plan_height.max(top);
        });
        Ok((reach, plan_height))
    }
}
