//! A grid as it lies in lent memory (docs/DESIGN.md, "Lent memory"), and a mark of
//! all its words.

use crate::model::{
    grid::Model,
    plan::{AxesPlan, GridPlan},
};
use crate::numerical_integration::{Grid, state::RECORD_WORDS};

/// Where a word of a dump lies.
#[derive(Clone, Copy)]
pub enum Slot {
    Real(usize),
    Count(usize),
}

/// What a plan needs of the two slices, doubles as their bits. Entries past the bins
/// now held are room and keep what they held.
#[derive(Clone, Default)]
pub struct Lent {
    reals: Vec<u64>,
    counts: Vec<u64>,
}

impl Lent {
    /// Zeros, and the model's grid in them.
    pub fn of(model: &Model) -> Lent {
        let mut places = Places::default();
        places.grid(&model.plan, &model.grid);
        let mut lent = Lent {
            reals: vec![0; places.reals],
            counts: vec![0; places.counts],
        };
        lent.lay(model);
        lent
    }

    pub fn lay(&mut self, model: &Model) {
        for (slot, word) in slots(model).into_iter().zip(model.grid.words()) {
            match slot {
                Slot::Real(at) => self.reals[at] = word,
                Slot::Count(at) => self.counts[at] = word,
            }
        }
    }

    /// All words mixed into one, in order, the reals first.
    pub fn mark(&self) -> u64 {
        let words = self.reals.iter().chain(&self.counts);
        words.fold(0xcbf2_9ce4_8422_2325, |mark, word| mixed(mark, *word))
    }

    /// The mark of memory of another's size, zeros where nothing was laid yet.
    pub fn mark_of(&self, other: &Lent) -> u64 {
        let mut lent = self.clone();
        lent.reals.resize(other.reals.len(), 0);
        lent.counts.resize(other.counts.len(), 0);
        lent.mark()
    }
}

/// A word joined to the mark; sums and halves shifted then spread it over all bits.
fn mixed(mark: u64, word: u64) -> u64 {
    let joined = mark ^ word;
    let up = joined.wrapping_add(joined << 21);
    let down = up ^ (up >> 24);
    let again = down.wrapping_add(down << 8);
    again ^ (again >> 14)
}

/// Where the words of a dump lie, in its order.
pub fn slots(model: &Model) -> Vec<Slot> {
    let mut places = Places::default();
    places.grid(&model.plan, &model.grid);
    places.slots
}

/// How much is laid so far, and the slots.
#[derive(Default)]
struct Places {
    reals: usize,
    counts: usize,
    slots: Vec<Slot>,
}

impl Places {
    fn record(&mut self) {
        let (r, c) = (self.reals, self.counts);
        let slot = |at| match at {
            0..12 => Slot::Real(r + at),
            12..16 => Slot::Count(c + at - 12),
            16 => Slot::Real(r + 12),
            17 => Slot::Count(c + 4),
            18 => Slot::Real(r + 13),
            19 => Slot::Count(c + 5),
            _ => Slot::Count(c + 6),
        };
        self.slots.extend((0..RECORD_WORDS).map(slot));
        self.reals += 14;
        self.counts += 7;
    }

    fn axis(&mut self, plan: &AxesPlan, held: usize) {
        let most = plan.most_bins();
        let (r, c) = (self.reals, self.counts);
        let values = |of: usize, i: usize| Slot::Real(r + most + 1 + of * most + i);
        let numbers = |of: usize, i: usize| Slot::Count(c + 2 + of * most + i);
        self.slots.extend([Slot::Count(c), Slot::Count(c + 1)]);
        self.slots.extend((0..=held).map(|i| Slot::Real(r + i)));
        self.slots.extend((0..held).map(|i| values(0, i)));
        self.slots.extend((0..held).map(|i| numbers(2, i)));
        for i in 0..held {
            self.slots.extend([values(1, i), values(2, i)]);
            self.slots.extend([numbers(0, i), numbers(1, i)]);
            self.slots.extend([values(3, i), values(4, i)]);
        }
        self.reals += 6 * most + 1;
        self.counts += 3 * most + 2;
    }

    fn grid(&mut self, plan: &GridPlan, grid: &Grid<f64>) {
        self.record();
        match (plan, grid) {
            (GridPlan::Axes(plan), Grid::Continuous(grid)) => {
                for axis in &grid.continuous_dimensions {
                    self.axis(plan, axis.partitioning.len() - 1);
                }
            }
            (GridPlan::Bins(plan), Grid::Discrete(grid)) => {
                let r = self.reals;
                self.reals += grid.bins.len();
                self.slots.extend((r..self.reals).map(Slot::Real));
                grid.bins.iter().for_each(|_| self.record());
                let children = plan.children.iter().zip(&grid.bins);
                for (plan, bin) in children {
                    if let (Some(plan), Some(grid)) = (plan, &bin.sub_grid) {
                        self.grid(plan, grid);
                    }
                }
            }
            _ => unreachable!("the grid is the plan's"),
        }
    }
}
