//! Lists of calls performed from a new plan on, and then a packing.

use crate::edits::Edit;
use crate::pack::Placement;
use crate::plan::{Lists, Plan};
use crate::refusal::Refusal;
use crate::skyline::Skyline;

#[derive(Clone, Debug)]
pub enum Call {
    Load { lists: Lists, root: u16, walk: usize },
    Test(Edit),
    Begin(Edit),
    Keep,
    Undo,
    Pack,
}

#[derive(Clone, Copy, Debug, PartialEq, Eq)]
pub enum Stop {
    /// The first call that the state before it does not allow.
    OutOfTurn(usize),
    Refused(Refusal),
}

fn first_out_of_turn(calls: &[Call]) -> Option<usize> {
    let mut trial = false;
    calls.iter().position(|call| {
        let wants_trial = match call {
            Call::Load { .. } | Call::Test(_) | Call::Begin(_) => false,
            Call::Keep | Call::Undo => true,
            Call::Pack => trial,
        };
        let out = wants_trial != trial;
        trial = match call {
            Call::Begin(_) => true,
            Call::Keep | Call::Undo => false,
            _ => trial,
        };
        out
    })
}

/// `load_walk` and `walk` are the numbers of walk records lent to the loads and to the packings.
pub fn pack_after(
    calls: &[Call],
    skyline: &mut Skyline,
    load_walk: usize,
    walk: usize,
    places: &mut [Placement],
) -> Result<(u32, u32), Stop> {
    if let Some(call) = first_out_of_turn(calls) {
        return Err(Stop::OutOfTurn(call));
    }
    let mut plan = Plan::new();
    for call in calls {
        // What is refused leaves the plan as it is, and the list goes on.
        match call {
            Call::Load { lists, root, walk } => _ = plan.load(lists, *root, load_walk.min(*walk)),
            Call::Test(_) => {}
            Call::Begin(edit) => _ = plan.begin(*edit),
            Call::Keep => plan.keep(),
            Call::Undo => plan.undo(),
            Call::Pack => _ = plan.pack(skyline, walk, places),
        }
    }
    plan.pack(skyline, walk, places).map_err(Stop::Refused)
}
