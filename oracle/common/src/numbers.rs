//! The lent numbers of a whole assembly: weights and tables of each rule, geometry of each cell, kernel values of each pair. All are made beforehand; geometry
//! and kernel values are slices of two pools, so that lending is no more than finding a place.
use crate::job::{Elements, Job, QUAD, TRIANGLE};
use crate::random::Random;
use std::sync::Arc;

/// Rules 0 to 148 are those of the touching patterns; the four from here on are those of distant pairs: of two triangles, of triangle and quad, of quad and
/// triangle, of two quads, the test cell's kind first.
pub const DISTANT: usize = 149;
pub const RULES: usize = 153;

/// Test kind and trial kind, in the order of the patterns.
pub const TWO_KINDS: [[u8; 2]; 4] = [
    [TRIANGLE, TRIANGLE],
    [TRIANGLE, QUAD],
    [QUAD, TRIANGLE],
    [QUAD, QUAD],
];

/// The place of two kinds in that order.
pub fn two_kinds(kinds: [u8; 2]) -> usize {
    TWO_KINDS.iter().position(|two| *two == kinds).unwrap()
}

/// Test kind and trial kind of a rule.
pub fn rule_kinds(rule: usize) -> [u8; 2] {
    TWO_KINDS[match rule {
        0..28 => 0,
        28..64 => 1,
        64..100 => 2,
        100..DISTANT => 3,
        _ => rule - DISTANT,
    }]
}

/// The rule of a work record's pair.
pub fn rule_of(kinds: &[u8], [pattern, test, trial]: [u32; 3]) -> usize {
    match pattern {
        255 => DISTANT + two_kinds([test, trial].map(|cell| kinds[cell as usize])),
        _ => pattern as usize,
    }
}

/// The rules of a mesh with cells of these kinds, rising.
pub fn rules(kinds_present: &[u8]) -> Vec<usize> {
    let used = |rule: &usize| rule_kinds(*rule).iter().all(|k| kinds_present.contains(k));
    (0..RULES).filter(used).collect()
}

/// Those of them that are of touching patterns.
pub fn touching_rules(kinds_present: &[u8]) -> Vec<usize> {
    let mut rules = rules(kinds_present);
    rules.retain(|rule| *rule < DISTANT);
    rules
}

pub struct Numbers {
    pub width: usize,
    pub rows: usize,
    points: Points,
    /// Weights of each touching pattern.
    pub weights: Vec<Vec<f64>>,
    /// Weights of the four rules of distant pairs.
    pub test_weights: Vec<Vec<f64>>,
    pub trial_weights: Vec<Vec<f64>>,
    /// A table for each rule.
    pub test_tables: Arc<Vec<Vec<f64>>>,
    pub trial_tables: Arc<Vec<Vec<f64>>>,
    geometry: Vec<f64>,
    kernel: Vec<f64>,
}

/// How large the numbers are: ordinary ones, small ones whose products underflow, large ones whose sums and products overflow.
#[derive(Clone, Copy, Debug, PartialEq)]
pub enum Size {
    Ordinary,
    Small,
    Large,
}

/// The point counts of the rules.
#[derive(Clone)]
pub struct Points {
    /// Of each touching pattern.
    pub touching: Vec<usize>,
    /// Of distant pairs: on a triangle, on a quad.
    pub test: [usize; 2],
    pub trial: [usize; 2],
}

impl Points {
    /// As many for every touching pattern, and as many on every cell of a distant pair.
    pub fn of(touching: usize, distant: usize) -> Self {
        Self {
            touching: vec![touching; DISTANT],
            test: [distant; 2],
            trial: [distant; 2],
        }
    }

    /// The points of a rule, on the test or the trial side.
    pub fn of_rule(&self, rule: usize, trial: bool) -> usize {
        if rule < DISTANT {
            return self.touching[rule];
        }
        let quad = (rule_kinds(rule)[trial as usize] == QUAD) as usize;
        if trial {
            self.trial[quad]
        } else {
            self.test[quad]
        }
    }

    /// Whether test and trial points of distant pairs are as many, on cells of either kind.
    pub fn sides_agree(&self, kinds_present: &[u8]) -> bool {
        let agree = |kind: &u8| {
            let quad = (*kind == QUAD) as usize;
            self.test[quad] == self.trial[quad]
        };
        kinds_present.iter().all(agree)
    }
}

/// The lists that a rule lends beside geometry and kernel values.
#[derive(Clone, Copy)]
pub enum List {
    TestWeights,
    TrialWeights,
    TestTable,
    TrialTable,
}

/// Geometry of n points, each jdet above 0.
pub fn geometry_pool(random: &mut Random, size: Size, n: usize) -> Vec<f64> {
    let mut geometry = number_pool(random, size, 10 * n);
    for jdet in geometry.iter_mut().step_by(10) {
        *jdet = jdet.abs().max(f64::MIN_POSITIVE);
    }
    geometry
}

pub fn number_pool(random: &mut Random, size: Size, n: usize) -> Vec<f64> {
    (0..n).map(|_| number(random, size)).collect()
}

fn number(random: &mut Random, size: Size) -> f64 {
    match (random.below(32), size) {
        (0, _) => [0.0, -0.0][random.below(2)],
        (1, _) => random.below(9) as f64 - 4.0,
        (n, Size::Small) if n < 16 => random.float(-600, -280),
        (n, Size::Large) if n < 16 => random.float(330, 520),
        _ => random.float(-2, 1),
    }
}

/// A place below n for three numbers, in no order that a slip could keep.
fn place(a: usize, b: usize, c: usize, n: usize) -> usize {
    let mixed = (a as u64)
        .wrapping_mul(0x9e3779b97f4a7c15)
        .wrapping_add((b as u64).wrapping_mul(0xbf58476d1ce4e5b9))
        .wrapping_add((c as u64).wrapping_mul(0x94d049bb133111eb));
    ((mixed >> 40) as usize) % n
}

/// The number of a rule by which places are found. That of two distant triangles follows the patterns of two triangles: so it is in the recorded answers.
fn key(rule: usize) -> usize {
    match rule {
        DISTANT => 28,
        28..DISTANT => rule + 1,
        _ => rule,
    }
}

impl Numbers {
    pub fn new(job: &Job, points: Points, size: Size, random: &mut Random) -> Self {
        let (width, rows) = (job.integrand.kernel_width(), job.integrand.table_rows());
        let rules = rules(&job.mesh.kinds_present());
        let mut weights = vec![vec![]; DISTANT];
        let mut distant_weights = [vec![vec![]; 4], vec![vec![]; 4]];
        for rule in &rules {
            let mut list = |trial| number_pool(random, size, points.of_rule(*rule, trial));
            if *rule < DISTANT {
                weights[*rule] = list(false);
            } else {
                distant_weights[0][*rule - DISTANT] = list(false);
                distant_weights[1][*rule - DISTANT] = list(true);
            }
        }
        let mut tables = |elements: Elements, trial| {
            let mut tables = vec![vec![]; RULES];
            for rule in &rules {
                let dim = elements.dim(rule_kinds(*rule)[trial as usize]);
                let n = rows * points.of_rule(*rule, trial) * dim;
                tables[*rule] = number_pool(random, size, n);
            }
            Arc::new(tables)
        };
        let test_tables = tables(job.test, false);
        let trial_tables = tables(job.trial, true);
        let most = rules.iter().map(|rule| points.of_rule(*rule, false)).max();
        let most = most.unwrap_or(0).max(64);
        let kernel_points = rules.iter().map(|rule| match *rule {
            0..DISTANT => points.touching[*rule],
            _ => points.of_rule(*rule, false) * points.of_rule(*rule, true),
        });
        let kernel_points = kernel_points.max().unwrap_or(0).max(64) + 4000;
        let geometry = geometry_pool(random, size, most + 400);
        let kernel = number_pool(random, size, width * kernel_points);
        let [test_weights, trial_weights] = distant_weights;
        Self {
            width,
            rows,
            points,
            weights,
            test_weights,
            trial_weights,
            test_tables,
            trial_tables,
            geometry,
            kernel,
        }
    }

    /// The same numbers for many jobs: weights, tables and kernel values are slices of one pool, geometry of the other.
    pub fn of_pools(job: &Job, points: Points, geometry: &[f64], pool: &[f64]) -> Self {
        let (width, rows) = (job.integrand.kernel_width(), job.integrand.table_rows());
        let mut numbers = Self {
            width,
            rows,
            points,
            weights: vec![],
            test_weights: vec![],
            trial_weights: vec![],
            test_tables: Arc::default(),
            trial_tables: Arc::default(),
            geometry: geometry.to_vec(),
            kernel: pool.to_vec(),
        };
        let rules = rules(&job.mesh.kinds_present());
        let slices = |list: List, each: &dyn Fn(usize) -> usize| {
            let mut slices = vec![vec![]; RULES];
            for rule in &rules {
                let n = each(*rule);
                let start = numbers.list_place(list, *rule, n);
                slices[*rule] = pool[start..start + n].to_vec();
            }
            slices
        };
        let weights = |list, trial| slices(list, &|rule| numbers.points_of(rule, trial));
        let tables = |list, trial, elements: Elements| {
            slices(list, &|rule| {
                let dim = elements.dim(rule_kinds(rule)[trial as usize]);
                rows * numbers.points_of(rule, trial) * dim
            })
        };
        let mut test_weights = weights(List::TestWeights, false);
        let mut trial_weights = weights(List::TrialWeights, true);
        let test_tables = tables(List::TestTable, false, job.test);
        let trial_tables = tables(List::TrialTable, true, job.trial);
        numbers.test_weights = test_weights.split_off(DISTANT);
        numbers.trial_weights = trial_weights.split_off(DISTANT);
        numbers.weights = test_weights;
        numbers.test_tables = Arc::new(test_tables);
        numbers.trial_tables = Arc::new(trial_tables);
        numbers
    }

    /// Where a list of a rule, n long, begins in the pool of `of_pools`.
    pub fn list_place(&self, list: List, rule: usize, n: usize) -> usize {
        place(list as usize, key(rule), 1 << 20, self.kernel.len() - n + 1)
    }

    pub fn points(&self) -> &Points {
        &self.points
    }

    /// The points of a rule, on the test or the trial side.
    pub fn points_of(&self, rule: usize, trial: bool) -> usize {
        self.points.of_rule(rule, trial)
    }

    /// Where the geometry of a cell at the points of a rule begins, counted in points.
    pub fn geometry_place(&self, rule: usize, trial: bool, cell: usize) -> usize {
        let n = self.points_of(rule, trial);
        place(
            key(rule),
            trial as usize,
            cell,
            self.geometry.len() / 10 - n + 1,
        )
    }

    /// The geometry of a cell at the points of a rule, ten numbers a point.
    pub fn geometry(&self, rule: usize, trial: bool, cell: usize) -> &[f64] {
        let start = 10 * self.geometry_place(rule, trial, cell);
        &self.geometry[start..start + 10 * self.points_of(rule, trial)]
    }

    /// How many kernel values a pair has.
    pub fn kernel_length(&self, rule: usize) -> usize {
        match rule {
            0..DISTANT => self.width * self.points.touching[rule],
            _ => self.width * self.points_of(rule, false) * self.points_of(rule, true),
        }
    }

    /// Where the kernel values of a pair begin.
    pub fn kernel_place(&self, rule: usize, test_cell: usize, trial_cell: usize) -> usize {
        let n = self.kernel_length(rule);
        place(key(rule), test_cell, trial_cell, self.kernel.len() - n + 1)
    }

    /// The kernel values of a pair.
    pub fn kernel(&self, rule: usize, test_cell: usize, trial_cell: usize) -> &[f64] {
        let start = self.kernel_place(rule, test_cell, trial_cell);
        &self.kernel[start..start + self.kernel_length(rule)]
    }

    /// The points of the largest rule that has any weights.
    pub fn most_points(&self) -> usize {
        let lists = self.weights.iter().chain(&self.test_weights);
        let most = lists.chain(&self.trial_weights).map(|list| list.len());
        most.max().unwrap()
    }

    /// A starting matrix that is not zero.
    pub fn start(&self, n: usize) -> Vec<f64> {
        self.kernel.iter().copied().cycle().take(n).collect()
    }
}
