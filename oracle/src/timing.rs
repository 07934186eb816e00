//! The published Rust timed: what in it is planning, a whole assembly, and the copying of its stand-ins.
use crate::boundary_assemblers::helpers::door;
use crate::boundary_assemblers::integrands::{
    BoundaryIntegrand, HypersingularCurlCurlBoundaryIntegrand, SingleLayerBoundaryIntegrand,
};
use crate::clock::thread_time;
use crate::function::FunctionSpaceTrait;
use crate::grid::TriangleGrid;
use crate::job::Job;
use crate::numbers::Numbers;
use crate::published::{assembler, lend_rules, options, spaces, LentKernel};
use green_kernels::{traits::Kernel, types::GreenKernelEvalType};
use ndelement::types::ReferenceCellType::Triangle;
use ndgrid::traits::{GeometryMap, Grid};
use std::collections::HashMap;
use std::hint::black_box;
use std::time::Duration;

/// The parts of the Rust's planning. It has no work list: it decides at each pair, in the midst of the assembly, whether its cells touch.
#[derive(Clone, Copy, Debug, Default)]
pub struct PlanTimes {
    /// `FunctionSpace::new`, twice: `assign_dofs` and global numbers.
    pub spaces: Duration,
    /// `cell_colouring`, twice.
    pub colours: Duration,
    /// `make_cell_blocks`.
    pub blocks: Duration,
    /// `neighbours`, on each pair of cells.
    pub neighbours: Duration,
}

impl PlanTimes {
    pub fn sum(&self) -> Duration {
        self.spaces + self.colours + self.blocks + self.neighbours
    }
}

fn timed<R>(f: impl FnOnce() -> R) -> (R, Duration) {
    let start = thread_time();
    let r = black_box(f());
    (r, thread_time() - start)
}

/// The patterns that `assemble_singular_part` makes before it asks for the blocks.
fn patterns() -> HashMap<Vec<(usize, usize)>, usize> {
    let mut patterns = HashMap::new();
    let edges = ndelement::reference_cell::edges(Triangle);
    let vertices = (0..3).flat_map(|i| (0..3).map(move |j| vec![(i, j)]));
    let on_edges = edges.iter().flat_map(|e| {
        edges.iter().flat_map(|g| {
            [
                vec![(e[0], g[0]), (e[1], g[1])],
                vec![(e[1], g[0]), (e[0], g[1])],
            ]
        })
    });
    let same = [(0..3).map(|i| (i, i)).collect::<Vec<_>>()];
    for (i, pairs) in vertices.chain(on_edges).chain(same).enumerate() {
        patterns.insert(pairs, i);
    }
    patterns
}

pub fn plan_times(job: &Job, numbers: &Numbers) -> PlanTimes {
    let grid = TriangleGrid::new(&job.mesh, numbers, false);
    let ((test, trial), of_spaces) = timed(|| spaces(job, numbers, &grid));
    let (_, colours) = timed(|| (test.cell_colouring(), trial.cell_colouring()));
    let (_, blocks) = timed(|| {
        let patterns = patterns();
        door::cell_blocks(|pairs| patterns[&pairs], &grid, job.batch as usize)
    });
    let cells = job.mesh.cells as usize;
    let (_, neighbours) = timed(|| {
        let of_trial = |r| {
            (0..cells)
                .filter(|t| door::are_neighbours(&grid, *t, r))
                .count()
        };
        (0..cells).map(of_trial).sum::<usize>()
    });
    PlanTimes {
        spaces: of_spaces,
        colours,
        blocks,
        neighbours,
    }
}

/// A whole assembly, and what it asked of its stand-ins.
struct Assembly {
    time: Duration,
    geometry: Vec<[usize; 2]>,
    kernel: Vec<[u32; 3]>,
}

fn assembly_with<I: BoundaryIntegrand<T = f64>>(
    job: &Job,
    numbers: &Numbers,
    integrand: I,
    note: bool,
    matrix: &mut Vec<f64>,
) -> Assembly {
    lend_rules(numbers);
    let grid = TriangleGrid::new(&job.mesh, numbers, note);
    let options = options(job, numbers);
    let assembler = assembler(integrand, numbers, note, &options);
    let start = thread_time();
    let (test, trial) = spaces(job, numbers, &grid);
    matrix.resize(test.global_size() * trial.global_size(), 0.0);
    assembler.assemble_into_memory(&trial, &test, matrix);
    Assembly {
        time: thread_time() - start,
        geometry: grid.take_asked(),
        kernel: assembler.kernel.kernel.take_asked(),
    }
}

/// With the integrand fixed at compile time, as the Rust has it.
fn assembly(job: &Job, numbers: &Numbers, note: bool, matrix: &mut Vec<f64>) -> Assembly {
    match job.integrand.first.kind {
        0 => {
            let integrand = SingleLayerBoundaryIntegrand::new();
            assembly_with(job, numbers, integrand, note, matrix)
        }
        3 => {
            let integrand = HypersingularCurlCurlBoundaryIntegrand::new();
            assembly_with(job, numbers, integrand, note, matrix)
        }
        kind => panic!("kind {kind} is not timed"),
    }
}

/// The time of spaces and `assemble_into_memory`, onto an empty or a whole matrix. One bare term of kind 0 or 3.
pub fn assembly_time(job: &Job, numbers: &Numbers, matrix: &mut Vec<f64>) -> Duration {
    assembly(job, numbers, false, matrix).time
}

/// What the stand-ins copied in one assembly, copied again alone.
pub struct Copying {
    geometry: Vec<[usize; 2]>,
    kernel: Vec<[u32; 3]>,
}

impl Copying {
    pub fn new(job: &Job, numbers: &Numbers) -> Self {
        let assembly = assembly(job, numbers, true, &mut vec![]);
        Self {
            geometry: assembly.geometry,
            kernel: assembly.kernel,
        }
    }

    pub fn time(&self, job: &Job, numbers: &Numbers) -> Duration {
        let grid = TriangleGrid::new(&job.mesh, numbers, false);
        let start = thread_time();
        copy_geometry(&self.geometry, &grid, numbers);
        copy_kernel(&self.kernel, numbers);
        thread_time() - start
    }
}

fn copy_geometry(asked: &[[usize; 2]], grid: &TriangleGrid, numbers: &Numbers) {
    let mut lists = [3, 6, 1, 3].map(|each| vec![0.0; each * numbers.most_points()]);
    for [mark, cell] in asked {
        let n = numbers.points_of(mark / 2, mark % 2 == 1);
        let map = grid.geometry_map(Triangle, &[*mark as f64]);
        let [points, jacobians, jdets, normals] = &mut lists;
        map.points(*cell, &mut points[..3 * n]);
        map.jacobians_dets_normals(
            *cell,
            &mut jacobians[..6 * n],
            &mut jdets[..n],
            &mut normals[..3 * n],
        );
        black_box(&mut lists);
    }
}

fn copy_kernel(asked: &[[u32; 3]], numbers: &Numbers) {
    let kernel = LentKernel::new(numbers, false);
    let mut values = vec![0.0; numbers.width * numbers.most_points().pow(2)];
    for [pattern, test_cell, trial_cell] in asked {
        let rule = if *pattern == 255 { 28 } else { *pattern };
        let n = numbers.kernel_length(rule as usize);
        let source = [*test_cell as f64, 2.0 * rule as f64];
        let target = [*trial_cell as f64];
        let eval_type = GreenKernelEvalType::Value;
        kernel.assemble_st(eval_type, &source, &target, &mut values[..n]);
        black_box(&mut values);
    }
}
