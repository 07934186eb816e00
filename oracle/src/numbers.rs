//! The lent numbers of a whole assembly: weights and tables of each rule, geometry of each cell, kernel values of each pair. All are made beforehand; geometry
//! and kernel values are slices of two pools, so that lending is no more than finding a place.
use crate::job::{dim, Job};
use crate::random::Random;
use std::sync::Arc;

/// Rules 0 to 27 are those of the touching patterns; this one is that of distant pairs.
pub const DISTANT: usize = 28;

pub struct Numbers {
    pub width: usize,
    pub rows: usize,
    /// Points of each touching pattern.
    pub touching_points: Vec<usize>,
    pub test_points: usize,
    pub trial_points: usize,
    pub weights: Vec<Vec<f64>>,
    pub test_weights: Vec<f64>,
    pub trial_weights: Vec<f64>,
    /// A table for each rule.
    pub test_tables: Arc<Vec<Vec<f64>>>,
    pub trial_tables: Arc<Vec<Vec<f64>>>,
    geometry: Vec<f64>,
    kernel: Vec<f64>,
}

/// How large the numbers are: ordinary ones, small ones whose products underflow, large ones whose sums and products overflow.
#[derive(Clone, Copy, Debug, PartialEq)]
pub enum Size {
    Ordinary,
    Small,
    Large,
}

/// The point counts of the rules.
pub struct Points {
    pub touching: Vec<usize>,
    pub test: usize,
    pub trial: usize,
}

/// The lists that a rule lends beside geometry and kernel values.
#[derive(Clone, Copy)]
pub enum List {
    TestWeights,
    TrialWeights,
    TestTable,
    TrialTable,
}

/// Geometry of n points, each jdet above 0.
pub fn geometry_pool(random: &mut Random, size: Size, n: usize) -> Vec<f64> {
    let mut geometry = number_pool(random, size, 10 * n);
    for jdet in geometry.iter_mut().step_by(10) {
        *jdet = jdet.abs().max(f64::MIN_POSITIVE);
    }
    geometry
}

pub fn number_pool(random: &mut Random, size: Size, n: usize) -> Vec<f64> {
    (0..n).map(|_| number(random, size)).collect()
}

fn number(random: &mut Random, size: Size) -> f64 {
    match (random.below(32), size) {
        (0, _) => [0.0, -0.0][random.below(2)],
        (1, _) => random.below(9) as f64 - 4.0,
        (n, Size::Small) if n < 16 => random.float(-600, -280),
        (n, Size::Large) if n < 16 => random.float(330, 520),
        _ => random.float(-2, 1),
    }
}

/// A place below n for three numbers, in no order that a slip could keep.
fn place(a: usize, b: usize, c: usize, n: usize) -> usize {
    let mixed = (a as u64)
        .wrapping_mul(0x9e3779b97f4a7c15)
        .wrapping_add((b as u64).wrapping_mul(0xbf58476d1ce4e5b9))
        .wrapping_add((c as u64).wrapping_mul(0x94d049bb133111eb));
    ((mixed >> 40) as usize) % n
}

impl Numbers {
    pub fn new(job: &Job, points: Points, size: Size, random: &mut Random) -> Self {
        let (width, rows) = (job.integrand.kernel_width(), job.integrand.table_rows());
        let mut list = |n: usize| (0..n).map(|_| number(random, size)).collect::<Vec<_>>();
        let weights = points.touching.iter().map(|p| list(*p)).collect();
        let (test_weights, trial_weights) = (list(points.test), list(points.trial));
        let mut tables = |element, distant: usize| {
            points
                .touching
                .iter()
                .chain([&distant])
                .map(|p| list(rows * p * dim(element)))
                .collect::<Vec<_>>()
        };
        let test_tables = tables(job.test, points.test);
        let trial_tables = tables(job.trial, points.trial);
        let most = points.touching.iter().max().unwrap().max(&64);
        let kernel_points = most.max(&(points.test * points.trial)) + 4000;
        let geometry = geometry_pool(random, size, most + 400);
        let kernel = number_pool(random, size, width * kernel_points);
        Self {
            width,
            rows,
            touching_points: points.touching,
            test_points: points.test,
            trial_points: points.trial,
            weights,
            test_weights,
            trial_weights,
            test_tables: Arc::new(test_tables),
            trial_tables: Arc::new(trial_tables),
            geometry,
            kernel,
        }
    }

    /// The same numbers for many jobs: weights, tables and kernel values are slices of one pool, geometry of the other.
    pub fn of_pools(job: &Job, points: Points, geometry: &[f64], pool: &[f64]) -> Self {
        let (width, rows) = (job.integrand.kernel_width(), job.integrand.table_rows());
        let mut numbers = Self {
            width,
            rows,
            touching_points: points.touching,
            test_points: points.test,
            trial_points: points.trial,
            weights: vec![],
            test_weights: vec![],
            trial_weights: vec![],
            test_tables: Arc::default(),
            trial_tables: Arc::default(),
            geometry: geometry.to_vec(),
            kernel: pool.to_vec(),
        };
        let slice = |list: List, rule, n| {
            let start = numbers.list_place(list, rule, n);
            pool[start..start + n].to_vec()
        };
        let weights = |list, trial| {
            (0..=DISTANT)
                .map(|rule| slice(list, rule, numbers.points_of(rule, trial)))
                .collect::<Vec<_>>()
        };
        let tables = |list, trial, element| {
            (0..=DISTANT)
                .map(|rule| {
                    let n = rows * numbers.points_of(rule, trial) * dim(element);
                    slice(list, rule, n)
                })
                .collect::<Vec<_>>()
        };
        let mut test_weights = weights(List::TestWeights, false);
        let mut trial_weights = weights(List::TrialWeights, true);
        let test_tables = tables(List::TestTable, false, job.test);
        let trial_tables = tables(List::TrialTable, true, job.trial);
        numbers.test_weights = test_weights.pop().unwrap();
        numbers.trial_weights = trial_weights.pop().unwrap();
        numbers.weights = test_weights;
        numbers.test_tables = Arc::new(test_tables);
        numbers.trial_tables = Arc::new(trial_tables);
        numbers
    }

    /// Where a list of a rule, n long, begins in the pool of `of_pools`.
    pub fn list_place(&self, list: List, rule: usize, n: usize) -> usize {
        place(list as usize, rule, 1 << 20, self.kernel.len() - n + 1)
    }

    /// The points of a rule, on the test or the trial side.
    pub fn points_of(&self, rule: usize, trial: bool) -> usize {
        match (rule, trial) {
            (DISTANT, false) => self.test_points,
            (DISTANT, true) => self.trial_points,
            _ => self.touching_points[rule],
        }
    }

    /// Where the geometry of a cell at the points of a rule begins, counted in points.
    pub fn geometry_place(&self, rule: usize, trial: bool, cell: usize) -> usize {
        let n = self.points_of(rule, trial);
        place(rule, trial as usize, cell, self.geometry.len() / 10 - n + 1)
    }

    /// The geometry of a cell at the points of a rule, ten numbers a point.
    pub fn geometry(&self, rule: usize, trial: bool, cell: usize) -> &[f64] {
        let start = 10 * self.geometry_place(rule, trial, cell);
        &self.geometry[start..start + 10 * self.points_of(rule, trial)]
    }

    /// How many kernel values a pair has.
    pub fn kernel_length(&self, rule: usize) -> usize {
        match rule {
            DISTANT => self.width * self.test_points * self.trial_points,
            _ => self.width * self.touching_points[rule],
        }
    }

    /// Where the kernel values of a pair begin.
    pub fn kernel_place(&self, rule: usize, test_cell: usize, trial_cell: usize) -> usize {
        let n = self.kernel_length(rule);
        place(rule, test_cell, trial_cell, self.kernel.len() - n + 1)
    }

    /// The kernel values of a pair.
    pub fn kernel(&self, rule: usize, test_cell: usize, trial_cell: usize) -> &[f64] {
        let start = self.kernel_place(rule, test_cell, trial_cell);
        &self.kernel[start..start + self.kernel_length(rule)]
    }

    /// The points of the largest rule.
    pub fn most_points(&self) -> usize {
        let touching = self.touching_points.iter().copied().max().unwrap();
        touching.max(self.test_points).max(self.trial_points)
    }

    /// A starting matrix that is not zero.
    pub fn start(&self, n: usize) -> Vec<f64> {
        self.kernel.iter().copied().cycle().take(n).collect()
    }
}
