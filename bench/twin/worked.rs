//! The worked examples of docs/RULES.md and docs/SKYLINES.md.

use crate::edits::Edit;
use crate::pack::Placement;
use crate::plan::{Lists, NONE, Plan, Side};
use crate::skyline::{Kind, Skyline};

const SIZES: [(u32, u32); 5] = [(4, 3), (3, 2), (2, 4), (2, 2), (5, 1)];

fn lists(letters: &[u8]) -> Lists {
    let children = vec![(1, 2), (3, 4), (NONE, NONE), (NONE, NONE), (NONE, NONE)];
    Lists { sizes: SIZES.to_vec(), letters: letters.to_vec(), children }
}

fn plan_k() -> Plan {
    let mut plan = Plan::new();
    plan.load(&lists(b"FFFFF"), 0, 5).unwrap();
    plan
}

fn skylines() -> [Skyline; 3] {
    [Skyline::new(Kind::Columns, 0, 20), Skyline::new(Kind::Placed, 20, 5), Skyline::new(Kind::Steps, 20, 11)]
}

/// The positions of the blocks, and the plan's width and height; the same on all kinds of skyline.
fn packed(plan: &Plan) -> (Vec<(u32, u32)>, (u32, u32)) {
    let [first, second, third] = skylines().map(|mut skyline| {
        let mut places = [Placement::default(); 5];
        let size = plan.pack(&mut skyline, 5, &mut places).unwrap();
        (places.map(|place| (place.x, place.y)).to_vec(), size)
    });
    assert_eq!(first, second);
    assert_eq!(first, third);
    first
}

#[test]
fn packs_plan_k() {
    let plan = plan_k();
    assert_eq!(packed(&plan), (vec![(0, 0), (4, 0), (0, 3), (7, 0), (4, 2)], (9, 7)));
    for mut skyline in skylines() {
        let raises = skyline.raises();
        plan.pack(&mut skyline, 5, &mut [Placement::default(); 5]).unwrap();
        let heights: Vec<u32> = (0..9).map(|c| skyline.highest(c, c + 1).unwrap()).collect();
        assert_eq!(heights, [7, 7, 3, 3, 3, 3, 3, 3, 3]);
        assert_eq!(skyline.raises_left(), raises - 5);
    }
}

#[test]
fn takes_out_the_root_and_undoes() {
    let mut plan = plan_k();
    assert!(plan.begin(Edit::TakeOut(0)));
    assert_eq!(plan.root(), 2);
    let report = plan.report(2).unwrap();
    assert_eq!((report.left, report.right), (1, NONE));
    assert_eq!(plan.report(0).unwrap_err().number, 21);
    assert_eq!(packed(&plan).1, (7, 4));
    plan.undo();
    assert_eq!(packed(&plan).1, (9, 7));
    assert_eq!(plan.kept(), 0);
}

#[test]
fn swaps_root_and_leaf() {
    let mut plan = plan_k();
    plan.begin(Edit::Swap(0, 4));
    plan.keep();
    let (at, size) = packed(&plan);
    assert_eq!((at[0], at[2], size), ((5, 2), (0, 1), (10, 5)));
    assert_eq!(plan.kept(), 1);
}

#[test]
fn moves_a_leaf() {
    let mut plan = plan_k();
    plan.begin(Edit::Move(3, 0, Side::Right));
    let (at, size) = packed(&plan);
    assert_eq!((at[3], at[2], size.1), ((0, 3), (0, 5), 9));
}

#[test]
fn keeps_letters_on_their_branches() {
    let kept = |letter: u8| {
        let mut plan = Plan::new();
        plan.load(&lists(&[letter; 5]), 0, 5).unwrap();
        (0..5).filter(|&block| plan.report(block).unwrap().kept).collect::<Vec<u16>>()
    };
    assert_eq!(kept(b'F'), [0, 1, 2, 3, 4]);
    assert_eq!(kept(b'B'), [0, 1, 3]);
    assert_eq!(kept(b'L'), [0, 2]);
    assert_eq!(kept(b'R'), [3]);
    assert_eq!(kept(b'T'), [2]);
}

#[test]
fn skylines_as_worked() {
    for mut skyline in skylines() {
        skyline.raise(2, 4, 5).unwrap();
        assert_eq!(skyline.highest(0, 3), Ok(5));
        assert_eq!(skyline.highest(0, 2), Ok(0));
        assert_eq!(skyline.raise(3, 5, 4).unwrap_err().number, 23);
    }
    assert_eq!(Skyline::new(Kind::Steps, 9, 1_025).raises(), 512);
    assert_eq!(Skyline::new(Kind::Placed, 9, 0).columns(), 0);
}
