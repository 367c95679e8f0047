//! Plan bytes: tagged fields, judged one by one, 1 then 2 then 3 in each.

use super::Refusal;
use crate::numerical_integration::{ContinuousGrid, DiscreteGrid, Grid};

pub const AXES: u8 = 0x01;
pub const EVOLUTION: u8 = 0x02;
pub const BINS: u8 = 0x03;
pub const NO_CHILD: u8 = 0x04;

pub const MOST_AXES: u64 = 8;
pub const MOST_AXIS_BINS: u64 = 1024;
pub const MOST_BINS: u64 = 256;
pub const MOST_GRIDS: usize = 64;
pub const MOST_LEVELS: usize = 4;
pub const MOST_EVOLUTION: usize = 16;

const HEADER: usize = 3;

/// An axes grid: field 01 with its 02, `evolution` being empty where no 02 follows.
#[derive(Clone, Debug)]
pub struct AxesPlan {
    pub axes: usize,
    pub bins: usize,
    pub least: u32,
    pub on_average: bool,
    pub floor: f64,
    pub evolution: Vec<usize>,
}

/// A bins grid: field 03 with one child to a bin.
#[derive(Clone, Debug)]
pub struct BinsPlan {
    pub ratio: f64,
    pub on_average: bool,
    pub children: Vec<Option<GridPlan>>,
}

#[derive(Clone, Debug)]
pub enum GridPlan {
    Axes(AxesPlan),
    Bins(BinsPlan),
}

/// A refusal and the offset of the field that earned it.
#[derive(Clone, Copy, Debug, PartialEq, Eq)]
pub struct Refused {
    pub refusal: Refusal,
    pub at: usize,
}

/// A field whose tag, header and payload are all there.
pub struct Field<'a> {
    pub tag: u8,
    pub payload: &'a [u8],
    pub at: usize,
    pub end: usize,
}

impl Field<'_> {
    pub fn refused(&self, refusal: Refusal) -> Refused {
        Refused {
            refusal,
            at: self.at,
        }
    }

    pub fn demand(&self, holds: bool, refusal: Refusal) -> Result<(), Refused> {
        if holds {
            Ok(())
        } else {
            Err(self.refused(refusal))
        }
    }

    pub fn byte(&self, at: usize) -> u8 {
        self.payload[at]
    }

    pub fn u16(&self, at: usize) -> u16 {
        u16::from_le_bytes(self.payload[at..at + 2].try_into().unwrap())
    }

    pub fn u32(&self, at: usize) -> u32 {
        u32::from_le_bytes(self.payload[at..at + 4].try_into().unwrap())
    }

    pub fn u64(&self, at: usize) -> u64 {
        u64::from_le_bytes(self.payload[at..at + 8].try_into().unwrap())
    }

    pub fn f64(&self, at: usize) -> f64 {
        f64::from_bits(self.u64(at))
    }
}

/// The field at an offset, of any tag. A missing field is refused at the input's
/// length, which is that offset; a cut one at its own tag.
pub fn field(bytes: &[u8], at: usize) -> Result<Field<'_>, Refused> {
    let malformed = Refused {
        refusal: Refusal::Malformed,
        at,
    };
    let header = bytes.get(at..at + HEADER).ok_or(malformed)?;
    let length = u16::from_le_bytes([header[1], header[2]]) as usize;
    let start = at + HEADER;
    let payload = bytes.get(start..start + length).ok_or(malformed)?;
    Ok(Field {
        tag: header[0],
        payload,
        at,
        end: start + length,
    })
}

/// The grid that the bytes begin with, and where it ends. What follows is not judged.
pub fn read_prefix(bytes: &[u8]) -> Result<(GridPlan, usize), Refused> {
    let mut reader = Reader {
        bytes,
        at: 0,
        grids: 0,
    };
    let first = reader.next()?;
    first.demand(first.tag != NO_CHILD, Refusal::Malformed)?;
    let plan = reader.child(&first, 1)?;
    Ok((plan.expect("04 was ruled out"), reader.at))
}

/// A plan and nothing after it.
pub fn read(bytes: &[u8]) -> Result<GridPlan, Refused> {
    let (plan, end) = read_prefix(bytes)?;
    if end < bytes.len() {
        return Err(Refused {
            refusal: Refusal::Malformed,
            at: end,
        });
    }
    Ok(plan)
}

struct Reader<'a> {
    bytes: &'a [u8],
    at: usize,
    grids: usize,
}

impl<'a> Reader<'a> {
    fn next(&mut self) -> Result<Field<'a>, Refused> {
        let field = field(self.bytes, self.at)?;
        self.at = field.end;
        Ok(field)
    }

    /// What hangs at a bin, or the root at level 1.
    fn child(&mut self, field: &Field, level: usize) -> Result<Option<GridPlan>, Refused> {
        match (field.tag, field.payload.len()) {
            (AXES, 16) => Ok(Some(GridPlan::Axes(self.axes(field)?))),
            (BINS, 11) => Ok(Some(GridPlan::Bins(self.bins(field, level)?))),
            (NO_CHILD, 0) => Ok(None),
            _ => Err(field.refused(Refusal::Malformed)),
        }
    }

    fn axes(&mut self, field: &Field) -> Result<AxesPlan, Refused> {
        let (axes, bins) = (field.byte(0) as u64, field.u16(1) as u64);
        let (flag, floor) = (field.byte(7), field.f64(8));
        self.grids += 1;
        field.demand((1..=MOST_AXES).contains(&axes), Refusal::Size)?;
        field.demand((1..=MOST_AXIS_BINS).contains(&bins), Refusal::Size)?;
        field.demand(self.grids <= MOST_GRIDS, Refusal::Size)?;
        field.demand(flag <= 1, Refusal::Range)?;
        field.demand((0.0..=1.0).contains(&floor), Refusal::Range)?;
        Ok(AxesPlan {
            axes: axes as usize,
            bins: bins as usize,
            least: field.u32(3),
            on_average: flag == 1,
            floor,
            evolution: self.evolution()?,
        })
    }

    /// The values of the 02 that stands here, if one does.
    fn evolution(&mut self) -> Result<Vec<usize>, Refused> {
        if self.bytes.get(self.at) != Some(&EVOLUTION) {
            return Ok(Vec::new());
        }
        let field = self.next()?;
        let length = field.payload.len();
        field.demand(length % 2 == 0, Refusal::Malformed)?;
        field.demand((1..=MOST_EVOLUTION).contains(&(length / 2)), Refusal::Size)?;
        let values: Vec<u64> = (0..length / 2).map(|i| field.u16(2 * i) as u64).collect();
        let in_bounds = |value: &u64| (1..=MOST_AXIS_BINS).contains(value);
        field.demand(values.iter().all(in_bounds), Refusal::Size)?;
        Ok(values.iter().map(|&value| value as usize).collect())
    }

    fn bins(&mut self, field: &Field, level: usize) -> Result<BinsPlan, Refused> {
        let bins = field.u16(0) as u64;
        let (ratio, flag) = (field.f64(2), field.byte(10));
        self.grids += 1;
        field.demand((1..=MOST_BINS).contains(&bins), Refusal::Size)?;
        field.demand(self.grids <= MOST_GRIDS, Refusal::Size)?;
        field.demand(level <= MOST_LEVELS, Refusal::Size)?;
        field.demand(ratio.is_finite() && ratio >= 1.0, Refusal::Range)?;
        field.demand(flag <= 1, Refusal::Range)?;
        let mut children = Vec::new();
        for _ in 0..bins {
            let field = self.next()?;
            children.push(self.child(&field, level + 1)?);
        }
        Ok(BinsPlan {
            ratio,
            on_average: flag == 1,
            children,
        })
    }
}

impl AxesPlan {
    /// An axis may hold the bins of 01 or any value of 02.
    pub fn allows(&self, held: usize) -> bool {
        held == self.bins || self.evolution.contains(&held)
    }

    /// The largest number of bins an axis may ever hold.
    pub fn most_bins(&self) -> usize {
        let evolved = self.evolution.iter().copied().max().unwrap_or(0);
        evolved.max(self.bins)
    }

    pub fn fresh(&self) -> ContinuousGrid<f64> {
        ContinuousGrid::new_with_min_probability_density(
            self.axes,
            self.bins,
            self.least as usize,
            (!self.evolution.is_empty()).then(|| self.evolution.clone()),
            self.on_average,
            self.floor,
        )
        .expect("the plan was judged")
    }
}

impl GridPlan {
    /// The bins in all, each axis at its largest number.
    pub fn room(&self) -> usize {
        match self {
            GridPlan::Axes(plan) => plan.axes * plan.most_bins(),
            GridPlan::Bins(plan) => {
                let children = plan.children.iter().flatten();
                plan.children.len() + children.map(GridPlan::room).sum::<usize>()
            }
        }
    }

    /// The grid as it is before anything was trained.
    pub fn fresh(&self) -> Grid<f64> {
        match self {
            GridPlan::Axes(plan) => Grid::Continuous(plan.fresh()),
            GridPlan::Bins(plan) => {
                let children = plan.children.iter();
                let grids = children.map(|child| child.as_ref().map(GridPlan::fresh));
                Grid::Discrete(
                    DiscreteGrid::new(grids.collect(), plan.ratio, plan.on_average)
                        .expect("the plan was judged"),
                )
            }
        }
    }

    /// The bytes that read as this plan.
    pub fn bytes(&self) -> Vec<u8> {
        let mut bytes = Vec::new();
        self.write(&mut bytes);
        bytes
    }

    fn write(&self, bytes: &mut Vec<u8>) {
        match self {
            GridPlan::Axes(plan) => {
                bytes.extend([AXES, 16, 0, plan.axes as u8]);
                bytes.extend((plan.bins as u16).to_le_bytes());
                bytes.extend(plan.least.to_le_bytes());
                bytes.push(plan.on_average as u8);
                bytes.extend(plan.floor.to_le_bytes());
                if !plan.evolution.is_empty() {
                    bytes.extend([EVOLUTION, 2 * plan.evolution.len() as u8, 0]);
                    for &value in &plan.evolution {
                        bytes.extend((value as u16).to_le_bytes());
                    }
                }
            }
            GridPlan::Bins(plan) => {
                bytes.extend([BINS, 11, 0]);
                bytes.extend((plan.children.len() as u16).to_le_bytes());
                bytes.extend(plan.ratio.to_le_bytes());
                bytes.push(plan.on_average as u8);
                for child in &plan.children {
                    match child {
                        Some(child) => child.write(bytes),
                        None => bytes.extend([NO_CHILD, 0, 0]),
                    }
                }
            }
        }
    }
}
