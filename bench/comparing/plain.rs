//! The calls of a script, worked by the twin.

use twin::calls::{Stop, pack_after};
use twin::pack::Placement;
use twin::plan::{Lists, Plan};
use twin::refusal::Refusal;
use twin::skyline::Skyline;

use crate::calls::{Call, Sky};
use crate::figures::OUT_OF_TURN;

/// What memory holds before a call.
const MARK: u32 = 43_981;
const UNTOUCHED: Placement = Placement { x: MARK, y: MARK, width: MARK, height: MARK };

/// A plan, a skyline and gathered lists in hand, with what the calls so far answer. A word is none where the rules leave it free.
pub struct Desk {
    pub plan: Plan,
    pub skyline: Skyline,
    pub trial: bool,
    lists: Lists,
    pub out: Vec<Option<u32>>,
}

impl Desk {
    pub fn new(sky: Sky) -> Desk {
        let skyline = Skyline::new(sky.kind, sky.columns, sky.records);
        let mut desk = Desk { plan: Plan::new(), skyline, trial: false, lists: Lists::default(), out: Vec::new() };
        desk.tell_skyline();
        desk
    }

    fn tell(&mut self, words: &[u32]) {
        self.out.extend(words.iter().map(|&word| Some(word)));
    }

    fn tell_skyline(&mut self) {
        self.tell(&[self.skyline.columns(), self.skyline.raises(), self.skyline.raises_left()]);
    }

    /// Tells what a call answered, and answers the number of its refusal, or 0.
    fn answer<const N: usize>(&mut self, answer: Result<[u32; N], Refusal>) -> u8 {
        match answer {
            Ok(words) => {
                self.tell(&[0]);
                self.tell(&words);
                0
            }
            Err(refusal) => {
                self.tell(&[refusal.number.into(), refusal.place]);
                refusal.number
            }
        }
    }

    /// How many walk records were altered: none if a test of memory refused, else any number.
    fn tell_walk(&mut self, refusal: u8) {
        self.out.push([1, 2, 18].contains(&refusal).then_some(0));
    }

    fn tell_places(&mut self, places: &[Placement]) {
        for place in places {
            self.tell(&[place.x, place.y, place.width, place.height]);
        }
        self.tell_skyline();
    }

    fn load(&mut self, root: u16, walk: u32) -> u8 {
        let lists = std::mem::take(&mut self.lists);
        let loaded = self.plan.load(&lists, root, walk as usize);
        let refusal = self.answer(loaded.map(|()| [self.plan.len() as u32]));
        self.tell_walk(refusal);
        refusal
    }

    fn report(&mut self, block: u16) -> u8 {
        let report = self.plan.report(block);
        self.answer(report.map(|r| [r.width, r.height, r.left.into(), r.right.into(), r.letter.into(), r.kept.into()]))
    }

    fn pack(&mut self, walk: u32, places: u32) -> u8 {
        let mut places = vec![UNTOUCHED; places as usize];
        let packed = self.plan.pack(&mut self.skyline, walk as usize, &mut places);
        let refusal = self.answer(packed.map(|(width, height)| [width, height]));
        self.tell_walk(refusal);
        self.tell_places(&places);
        refusal
    }

    /// All calls as one list from a new plan on, and then a packing.
    pub fn after(&mut self, calls: &[twin::calls::Call], load_walk: u32, walk: u32, places: u32) -> u8 {
        let mut places = vec![UNTOUCHED; places as usize];
        let refusal = match pack_after(calls, &mut self.skyline, load_walk as usize, walk as usize, &mut places) {
            Ok((width, height)) => self.answer(Ok([width, height])),
            Err(Stop::Refused(refusal)) => self.answer::<0>(Err(refusal)),
            Err(Stop::OutOfTurn(call)) => {
                self.tell(&[u32::MAX, call as u32]);
                OUT_OF_TURN
            }
        };
        self.out.push((refusal == OUT_OF_TURN).then_some(0));
        self.tell_places(&places);
        refusal
    }

    /// Works one call and answers the number of its refusal, or 0.
    pub fn work(&mut self, call: Call) -> u8 {
        match call {
            Call::Size(width, height) => self.lists.sizes.push((width, height)),
            Call::Letter(byte) => self.lists.letters.push(byte),
            Call::Pair(left, right) => self.lists.children.push((left, right)),
            Call::Load { root, walk } => return self.load(root, walk),
            Call::Test(edit) => {
                let tested = self.plan.test(edit);
                return self.answer(tested.map(|()| []));
            }
            Call::Begin(edit) => {
                let begun = self.plan.begin(edit);
                self.trial = true;
                self.tell(&[0, u32::from(!begun)]);
            }
            Call::Keep => {
                self.plan.keep();
                self.trial = false;
                self.tell(&[0, self.plan.kept()]);
            }
            Call::Undo => {
                self.plan.undo();
                self.trial = false;
                self.tell(&[0, self.plan.kept()]);
            }
            Call::Report(block) => return self.report(block),
            Call::Clear => {
                self.skyline.clear();
                self.tell(&[0]);
                self.tell_skyline();
            }
            Call::Highest(a, b) => {
                let highest = self.skyline.highest(a, b);
                let refusal = self.answer(highest.map(|height| [height]));
                self.tell_skyline();
                return refusal;
            }
            Call::Raise(a, b, h) => {
                let raised = self.skyline.raise(a, b, h);
                let refusal = self.answer(raised.map(|()| []));
                self.tell_skyline();
                return refusal;
            }
            Call::Pack { walk, places } => return self.pack(walk, places),
            Call::After { .. } => unreachable!("it is worked by `after`"),
            Call::ReportAll => {
                self.tell(&[0, self.plan.root().into()]);
                for block in 0..self.plan.len() {
                    self.report(block as u16);
                }
            }
        }
        0
    }
}
