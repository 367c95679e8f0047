//! The calls on a whole grid, each judged in the document's order.

use super::{
    Answer, MOST, Refusal,
    accumulator::{self, Summary},
    axis, demand, is_coordinate, is_probability, is_rate,
    plan::{AxesPlan, GridPlan},
    update::{self, Verdict},
};
use crate::numerical_integration::{
    Bin, ContinuousDimension, Grid, MonteCarloRng, Probe, Sample, StatisticsAccumulator,
    state::{AxisState, RECORD_WORDS, Record},
};

/// A sample laid flat: a bin at each level, a weight at each level (one more than
/// the bins where coordinates are given), and the coordinates, none where no axes
/// grid hangs.
#[derive(Clone, Debug, Default)]
pub struct Point {
    pub path: Vec<usize>,
    pub weights: Vec<f64>,
    pub coordinates: Vec<f64>,
}

impl Point {
    pub fn of(sample: &Sample<f64>) -> Point {
        match sample {
            Sample::Continuous(weight, coordinates) => Point {
                path: Vec::new(),
                weights: vec![*weight],
                coordinates: coordinates.clone(),
            },
            Sample::Discrete(weight, index, child) => {
                let mut point = child.as_ref().map_or(Point::default(), |c| Point::of(c));
                point.path.insert(0, *index);
                point.weights.insert(0, *weight);
                point
            }
            Sample::Uniform(..) => unreachable!("no plan draws one"),
        }
    }

    /// The nested sample, once the form is known to fit a grid.
    fn sample(&self) -> Sample<f64> {
        let mut weights = self.weights.iter().rev();
        let mut next_weight = || *weights.next().expect("one weight to a level");
        let mut sample = None;
        if !self.coordinates.is_empty() {
            sample = Some(Sample::Continuous(next_weight(), self.coordinates.clone()));
        }
        for &index in self.path.iter().rev() {
            sample = Some(Sample::Discrete(next_weight(), index, sample.map(Box::new)));
        }
        sample.expect("a judged sample is not empty")
    }
}

/// A plan and the grid that it describes.
#[derive(Clone, Debug)]
pub struct Model {
    pub plan: GridPlan,
    pub grid: Grid<f64>,
}

impl Model {
    pub fn fresh(plan: &GridPlan) -> Model {
        Model {
            plan: plan.clone(),
            grid: plan.fresh(),
        }
    }

    /// The grid whose whole state in words is given, well formed or not.
    pub fn from_words(plan: &GridPlan, words: &[u64]) -> Model {
        let mut rest = words;
        let grid = grid_from_words(plan, &mut rest);
        assert!(rest.is_empty(), "{} words too many", rest.len());
        Model {
            plan: plan.clone(),
            grid,
        }
    }

    fn judge(&self) -> Answer<()> {
        demand(well_formed(&self.grid, &self.plan), Refusal::IllFormed)
    }

    pub fn draw(&mut self, stream: &mut MonteCarloRng) -> Answer<Point> {
        self.judge()?;
        let mut sample = Sample::new();
        self.grid.sample(stream, &mut sample);
        Ok(Point::of(&sample))
    }

    /// The weight of a point or region. An open coordinate is none; no coordinates
    /// at all is an empty list.
    pub fn probe(&self, path: &[usize], coordinates: &[Option<f64>]) -> Answer<f64> {
        self.judge()?;
        judge_probe(&self.plan, path, coordinates)?;
        let probe = match self.plan {
            GridPlan::Axes(_) => Probe::Continuous(coordinates.to_vec()),
            GridPlan::Bins(_) => Probe::Discrete(path.to_vec(), coordinates.to_vec()),
        };
        Ok(self.grid.probe(&probe).expect("the probe was judged"))
    }

    pub fn train(&mut self, point: &Point, eval: f64, number: u64) -> Answer<()> {
        self.judge()?;
        demand((1..=MOST).contains(&number), Refusal::Range)?;
        judge_path(&self.plan, &point.path, &point.coordinates)?;
        let finite = eval.is_finite() && point.weights.iter().all(|w| w.is_finite());
        demand(finite, Refusal::NotFinite)?;
        let mut trained = self.grid.clone();
        trained
            .add_training_sample(&point.sample(), eval, number)
            .expect("the sample was judged");
        self.keep(trained)
    }

    pub fn update(&mut self, bins_rate: f64, axes_rate: f64) -> Answer<()> {
        self.judge()?;
        demand(is_rate(bins_rate) && is_rate(axes_rate), Refusal::Range)?;
        let mut verdict = Verdict::default();
        let expected = update::grid(&self.grid, bins_rate, axes_rate, &mut verdict);
        let mut updated = self.grid.clone();
        updated.update(bins_rate, axes_rate);
        verdict.judge(&expected.words(), &updated.words())?;
        self.grid = updated;
        self.judge().expect("an update keeps a grid well formed");
        Ok(())
    }

    pub fn is_mergeable(&self, other: &Model) -> Answer<()> {
        self.judge()?;
        other.judge()?;
        demand(same_shape(&self.grid, &other.grid), Refusal::Form)?;
        demand(same_numbers(&self.grid, &other.grid), Refusal::Unequal)
    }

    pub fn merge(&mut self, other: &Model) -> Answer<()> {
        self.is_mergeable(other)?;
        let mut merged = self.grid.clone();
        merged.merge(&other.grid).expect("the shapes were judged");
        self.keep(merged)
    }

    pub fn clone_without_samples(&self) -> Answer<Model> {
        self.judge()?;
        Ok(Model {
            plan: self.plan.clone(),
            grid: self.grid.clone_without_samples(),
        })
    }

    pub fn summary(&self) -> Answer<Summary> {
        self.judge()?;
        accumulator::summary(&self.grid.own())
    }

    /// The live estimate of the grid, or of the bin that a path leads to.
    pub fn live_estimate(&self, path: &[usize]) -> Answer<[f64; 3]> {
        self.judge()?;
        accumulator::live_estimate(&record_at(&self.grid, path)?)
    }

    /// Keeps a worked copy, unless a sum of it is not finite or a count too large.
    fn keep(&mut self, worked: Grid<f64>) -> Answer<()> {
        demand(sums_well_formed(&worked), Refusal::Overflow)?;
        self.grid = worked;
        Ok(())
    }
}

fn take<'a>(rest: &mut &'a [u64], count: usize) -> &'a [u64] {
    let (taken, left) = rest.split_at(count);
    *rest = left;
    taken
}

fn reals(words: &[u64]) -> Vec<f64> {
    words.iter().map(|&word| f64::from_bits(word)).collect()
}

fn grid_from_words(plan: &GridPlan, rest: &mut &[u64]) -> Grid<f64> {
    let own = Record::from_words(take(rest, RECORD_WORDS));
    match plan {
        GridPlan::Axes(plan) => {
            let axis =
                |rest: &mut &[u64]| ContinuousDimension::from_state(&axis_from_words(plan, rest));
            let axes = (0..plan.axes).map(|_| axis(rest)).collect();
            Grid::Continuous(plan.fresh().with(axes, &own))
        }
        GridPlan::Bins(bins_plan) => {
            let Grid::Discrete(fresh) = plan.fresh() else {
                unreachable!("a bins plan makes a bins grid")
            };
            let count = bins_plan.children.len();
            let probabilities = reals(take(rest, count));
            let records = take(rest, count * RECORD_WORDS).chunks(RECORD_WORDS);
            let records: Vec<Record> = records.map(Record::from_words).collect();
            let mut bins = Vec::new();
            for (i, child) in bins_plan.children.iter().enumerate() {
                bins.push(Bin {
                    pdf: probabilities[i],
                    accumulator: StatisticsAccumulator::from_record(&records[i]),
                    sub_grid: child.as_ref().map(|child| grid_from_words(child, rest)),
                });
            }
            Grid::Discrete(fresh.with(bins, &own))
        }
    }
}

/// One axis in the order of `AxisState::words`.
pub fn axis_from_words(plan: &AxesPlan, rest: &mut &[u64]) -> AxisState {
    let held = take(rest, 1)[0] as usize;
    let update_counter = take(rest, 1)[0];
    let edges = reals(take(rest, held + 1));
    let importances = reals(take(rest, held));
    let counters = take(rest, held).to_vec();
    let record = |words: &[u64]| Record {
        sum: f64::from_bits(words[0]),
        sum_sq: f64::from_bits(words[1]),
        new_samples: words[2],
        new_zero_evaluations: words[3],
        max_eval_positive: f64::from_bits(words[4]),
        max_eval_negative: f64::from_bits(words[5]),
        ..Record::default()
    };
    let evolution = match &plan.evolution[..] {
        [] => vec![plan.bins],
        values => values.to_vec(),
    };
    AxisState {
        edges,
        records: take(rest, 6 * held).chunks(6).map(record).collect(),
        importances,
        counters,
        least: plan.least as u64,
        evolution,
        update_counter,
        on_average: plan.on_average,
    }
}

/// Well formed in everything that the document lists, links being the tree itself.
fn well_formed(grid: &Grid<f64>, plan: &GridPlan) -> bool {
    accumulator::well_formed(&grid.own())
        && match (grid, plan) {
            (Grid::Continuous(grid), GridPlan::Axes(plan)) => {
                let axes = &grid.continuous_dimensions;
                axes.len() == plan.axes && axes.iter().all(|axis| axis::well_formed(axis, plan))
            }
            (Grid::Discrete(grid), GridPlan::Bins(plan)) => {
                let pairs = grid.bins.iter().zip(&plan.children);
                grid.bins.len() == plan.children.len()
                    && pairs.into_iter().all(|(bin, child)| {
                        is_probability(bin.pdf)
                            && accumulator::well_formed(&bin.accumulator.record())
                            && match (&bin.sub_grid, child) {
                                (Some(grid), Some(plan)) => well_formed(grid, plan),
                                (None, None) => true,
                                _ => false,
                            }
                    })
            }
            _ => false,
        }
}

/// Every kept sum finite and every count at most 2^53, in the whole tree.
fn sums_well_formed(grid: &Grid<f64>) -> bool {
    accumulator::well_formed(&grid.own())
        && match grid {
            Grid::Continuous(grid) | Grid::Uniform(_, grid) => grid
                .continuous_dimensions
                .iter()
                .all(axis::sums_well_formed),
            Grid::Discrete(grid) => grid.bins.iter().all(|bin| {
                accumulator::well_formed(&bin.accumulator.record())
                    && bin.sub_grid.as_ref().is_none_or(sums_well_formed)
            }),
        }
}

/// 6 and 4 along the path of a sample, then its coordinates. At each level the
/// index comes before what hangs there.
fn judge_path(plan: &GridPlan, path: &[usize], coordinates: &[f64]) -> Answer<()> {
    match plan {
        GridPlan::Axes(plan) => {
            demand(path.is_empty(), Refusal::Form)?;
            let given: Vec<Option<f64>> = coordinates.iter().copied().map(Some).collect();
            judge_coordinates(plan, &given)
        }
        GridPlan::Bins(plan) => {
            let (&index, rest) = path.split_first().ok_or(Refusal::Form)?;
            match plan.children.get(index).ok_or(Refusal::Index)? {
                None => demand(rest.is_empty() && coordinates.is_empty(), Refusal::Form),
                Some(child) => judge_path(child, rest, coordinates),
            }
        }
    }
}

/// As for a sample, but a path may end early where no coordinates are given.
fn judge_probe(plan: &GridPlan, path: &[usize], coordinates: &[Option<f64>]) -> Answer<()> {
    match plan {
        GridPlan::Axes(plan) => {
            demand(path.is_empty(), Refusal::Form)?;
            judge_coordinates(plan, coordinates)
        }
        GridPlan::Bins(plan) => {
            let (&index, rest) = path.split_first().ok_or(Refusal::Form)?;
            let child = plan.children.get(index).ok_or(Refusal::Index)?;
            if rest.is_empty() && coordinates.is_empty() {
                return Ok(());
            }
            judge_probe(child.as_ref().ok_or(Refusal::Form)?, rest, coordinates)
        }
    }
}

/// The number of coordinates, then each in order.
fn judge_coordinates(plan: &AxesPlan, coordinates: &[Option<f64>]) -> Answer<()> {
    demand(coordinates.len() == plan.axes, Refusal::Form)?;
    let judged = |x: &Option<f64>| x.is_none_or(is_coordinate);
    demand(coordinates.iter().all(judged), Refusal::Coordinate)
}

/// Kinds, axes, bins now held and children; nothing else of the plan.
fn same_shape(one: &Grid<f64>, other: &Grid<f64>) -> bool {
    match (one, other) {
        (Grid::Continuous(one), Grid::Continuous(other)) => {
            let held = |axis: &Vec<_>| axis.len() - 1;
            let one = one.continuous_dimensions.iter();
            let other = other.continuous_dimensions.iter();
            one.map(|axis| held(&axis.partitioning))
                .eq(other.map(|axis| held(&axis.partitioning)))
        }
        (Grid::Discrete(one), Grid::Discrete(other)) => {
            one.bins.len() == other.bins.len()
                && one.bins.iter().zip(&other.bins).all(|(one, other)| {
                    match (&one.sub_grid, &other.sub_grid) {
                        (Some(one), Some(other)) => same_shape(one, other),
                        (None, None) => true,
                        _ => false,
                    }
                })
        }
        _ => false,
    }
}

/// Edges, probabilities and floors of equal shapes, compared as numbers.
fn same_numbers(one: &Grid<f64>, other: &Grid<f64>) -> bool {
    match (one, other) {
        (Grid::Continuous(one), Grid::Continuous(other)) => {
            let axes = one.continuous_dimensions.iter();
            one.min_probability_density == other.min_probability_density
                && axes
                    .zip(&other.continuous_dimensions)
                    .all(|(one, other)| one.partitioning == other.partitioning)
        }
        (Grid::Discrete(one), Grid::Discrete(other)) => {
            one.bins.iter().zip(&other.bins).all(|(one, other)| {
                let children = one.sub_grid.as_ref().zip(other.sub_grid.as_ref());
                one.pdf == other.pdf && children.is_none_or(|(one, other)| same_numbers(one, other))
            })
        }
        _ => unreachable!("the shapes were judged"),
    }
}

fn record_at(grid: &Grid<f64>, path: &[usize]) -> Answer<Record> {
    let Some((&index, rest)) = path.split_first() else {
        return Ok(grid.own());
    };
    let Grid::Discrete(grid) = grid else {
        return Err(Refusal::Form);
    };
    let bin = grid.bins.get(index).ok_or(Refusal::Index)?;
    if rest.is_empty() {
        return Ok(bin.accumulator.record());
    }
    record_at(bin.sub_grid.as_ref().ok_or(Refusal::Form)?, rest)
}
