//! Plans of every kind.

use super::Dice;
use crate::model::plan::{AxesPlan, BinsPlan, GridPlan, MOST_GRIDS, MOST_LEVELS};
use crate::program::ROOM;

#[derive(Clone, Copy, PartialEq)]
pub enum Budget {
    /// No more bins in all than the program has room for.
    Room,
    /// Any number of bins.
    Any,
}

pub fn plan(dice: &mut Dice, budget: Budget) -> GridPlan {
    let mut room = match budget {
        Budget::Room => dice.pick(&[ROOM, ROOM, 24, 60]),
        Budget::Any => 4 * ROOM,
    };
    let mut grids = MOST_GRIDS;
    let level = if dice.chance(1, 2) {
        1
    } else {
        MOST_LEVELS + 1
    };
    grid(dice, &mut room, &mut grids, level)
}

/// A grid that fits in what is left of room and grids. Past the last level, and
/// where little is left, it is an axes grid.
fn grid(dice: &mut Dice, room: &mut usize, grids: &mut usize, level: usize) -> GridPlan {
    *grids -= 1;
    if level > MOST_LEVELS || *room < 4 {
        return GridPlan::Axes(axes(dice, room));
    }
    let most = (*room / 2).clamp(1, dice.pick(&[2, 3, 5, 8, 14]));
    let bins = dice.between(1, most);
    *room -= bins;
    let mut children = Vec::new();
    for _ in 0..bins {
        children.push(child(dice, room, grids, level));
    }
    bins_grid(dice, children)
}

fn child(dice: &mut Dice, room: &mut usize, grids: &mut usize, level: usize) -> Option<GridPlan> {
    if *room == 0 || *grids == 0 || dice.chance(1, 3) {
        return None;
    }
    let level = if dice.chance(1, 2) {
        level + 1
    } else {
        MOST_LEVELS + 1
    };
    Some(grid(dice, room, grids, level))
}

fn axes(dice: &mut Dice, room: &mut usize) -> AxesPlan {
    let largest = dice.pick(&[1, 2, 3, 5, 9, 17, 40, 128]).min(*room).max(1);
    let axes = match dice.below(4) {
        0 | 1 => 1,
        2 => dice.between(1, 3),
        _ => dice.between(1, 8),
    };
    let axes = axes.min(*room / largest).max(1);
    let mut evolution = Vec::new();
    if dice.chance(2, 5) {
        let values = dice.pick(&[1, 1, 2, 3, 5, 16]);
        evolution.extend((0..values).map(|_| dice.between(1, largest)));
    }
    *room -= (axes * largest).min(*room);
    AxesPlan {
        axes,
        bins: dice.between(largest.div_ceil(2), largest),
        least: dice.pick(&[0, 0, 0, 0, 1, 2, 5, 10, 25, u32::MAX]),
        on_average: dice.chance(1, 2),
        floor: floor(dice),
        evolution,
    }
}

fn floor(dice: &mut Dice) -> f64 {
    match dice.below(12) {
        0..5 => 0.0,
        5 => -0.0,
        6 => 1.0,
        7 => f64::from_bits(1),
        8 => 1.0 - f64::EPSILON / 2.0,
        9 => 0.5,
        _ => dice.unit(),
    }
}

fn ratio(dice: &mut Dice) -> f64 {
    match dice.below(10) {
        0 => 1.0,
        1 => 1.0 + f64::EPSILON,
        2 => 1e308,
        3 => f64::MAX,
        4 => 1e16,
        5..8 => 10.0,
        _ => 1.0 + 20.0 * dice.unit(),
    }
}

/// Plans at and just past a bound: on grids, on levels, on the program's room.
pub fn at_bounds(dice: &mut Dice) -> GridPlan {
    match dice.below(3) {
        0 => many_grids(dice),
        1 => many_levels(dice),
        _ => full_room(dice),
    }
}

fn bins_grid(dice: &mut Dice, children: Vec<Option<GridPlan>>) -> GridPlan {
    GridPlan::Bins(BinsPlan {
        ratio: ratio(dice),
        on_average: dice.chance(1, 2),
        children,
    })
}

/// One bins grid of 62 to 64 small children.
fn many_grids(dice: &mut Dice) -> GridPlan {
    let count = dice.between(MOST_GRIDS - 2, MOST_GRIDS);
    let children = (0..count).map(|_| Some(GridPlan::Axes(axes(dice, &mut 1))));
    let children = children.collect();
    bins_grid(dice, children)
}

/// Four or five nested levels.
fn many_levels(dice: &mut Dice) -> GridPlan {
    let mut plan = GridPlan::Axes(axes(dice, &mut 8));
    for _ in 0..dice.between(MOST_LEVELS, MOST_LEVELS + 1) {
        let mut children = vec![None; dice.between(1, 3)];
        let at = dice.below(children.len());
        children[at] = Some(plan);
        plan = bins_grid(dice, children);
    }
    plan
}

/// One bin less than the room up to two more, at a root's axis or below a bins root,
/// held from the start or after re-cuts.
fn full_room(dice: &mut Dice) -> GridPlan {
    let total = dice.between(ROOM - 1, ROOM + 2);
    let bins = if dice.chance(1, 2) {
        0
    } else {
        dice.between(1, 60)
    };
    let mut plan = axes(dice, &mut 1);
    plan.axes = 1;
    plan.bins = total - bins;
    if dice.chance(1, 2) {
        plan.evolution = vec![dice.between(1, 4), plan.bins];
        plan.bins = 2;
    }
    if bins == 0 {
        return GridPlan::Axes(plan);
    }
    let mut children = vec![None; bins];
    children[dice.below(bins)] = Some(GridPlan::Axes(plan));
    bins_grid(dice, children)
}
