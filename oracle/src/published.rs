//! The published Rust, run on a job.
use crate::answer::{Answer, Entries, Space};
use crate::boundary_assemblers::helpers::door::{self, Side};
use crate::boundary_assemblers::helpers::{
    CellGeometry, GreenKernelEvalType, KernelEvaluator, RawData2D, RlstArray,
};
use crate::boundary_assemblers::integrands::{
    Access1D, Access2D, AdjointDoubleLayerBoundaryIntegrand, BoundaryIntegrand,
    BoundaryIntegrandSum, BoundaryIntegrandTimesScalar, DoubleLayerBoundaryIntegrand,
    GeometryAccess, HypersingularCurlCurlBoundaryIntegrand,
    HypersingularNormalNormalBoundaryIntegrand, SingleLayerBoundaryIntegrand,
};
use crate::boundary_assemblers::{BoundaryAssembler, BoundaryAssemblerOptions};
use crate::function::{assign_dofs, FunctionSpace, FunctionSpaceTrait};
use crate::grid::{mark, TriangleGrid};
use crate::job::{Element, Job, Term};
use crate::numbers::{Numbers, DISTANT};
use bempp_quadrature::types::TestTrialNumericalQuadratureDefinition;
use green_kernels::traits::Kernel;
use mpi::OneProcess;
use ndelement::ciarlet::{CiarletElement, Tables};
use ndelement::quadrature::NumericalQuadratureDefinition;
use ndelement::traits::{ElementFamily, FiniteElement};
use ndelement::types::ReferenceCellType::{self, Triangle};
use rlst::{rlst_dynamic_array2, rlst_dynamic_array4, RawAccessMut};
use std::cell::RefCell;
use std::panic::{catch_unwind, AssertUnwindSafe};

pub type TriangleSpace<'a> = FunctionSpace<'a, OneProcess, f64, TriangleGrid<'a>>;

// ---- integrands: a choice among the published ones, made at each call

enum Kind {
    SingleLayer(SingleLayerBoundaryIntegrand<f64>),
    DoubleLayer(DoubleLayerBoundaryIntegrand<f64>),
    Adjoint(AdjointDoubleLayerBoundaryIntegrand<f64>),
    CurlCurl(HypersingularCurlCurlBoundaryIntegrand<f64>),
    NormalNormal(HypersingularNormalNormalBoundaryIntegrand<f64>),
}

enum OneTerm {
    Bare(Kind),
    Scaled(BoundaryIntegrandTimesScalar<f64, Kind>),
}

/// Each method goes to the integrand chosen.
macro_rules! delegate {
    ($name:ident: $($case:ident),+) => {
        unsafe impl BoundaryIntegrand for $name {
            type T = f64;

            fn evaluate(
                &self,
                k: &impl Access1D<T = f64>,
                test_table: &impl Access2D<T = f64>,
                trial_table: &impl Access2D<T = f64>,
                test_geometry: &impl GeometryAccess<T = f64>,
                trial_geometry: &impl GeometryAccess<T = f64>,
            ) -> f64 {
                match self {
                    $($name::$case(f) => f.evaluate(k, test_table, trial_table, test_geometry, trial_geometry),)+
                }
            }

            fn evaluate_nonsingular(
                &self,
                test_table: &RlstArray<f64, 4>,
                trial_table: &RlstArray<f64, 4>,
                test_point: usize,
                trial_point: usize,
                test_basis: usize,
                trial_basis: usize,
                k: &RlstArray<f64, 3>,
                test_geometry: &impl CellGeometry<T = f64>,
                trial_geometry: &impl CellGeometry<T = f64>,
            ) -> f64 {
                match self {
                    $($name::$case(f) => f.evaluate_nonsingular(
                        test_table, trial_table, test_point, trial_point, test_basis, trial_basis, k, test_geometry, trial_geometry,
                    ),)+
                }
            }

            fn evaluate_singular(
                &self,
                test_table: &RlstArray<f64, 4>,
                trial_table: &RlstArray<f64, 4>,
                point: usize,
                test_basis: usize,
                trial_basis: usize,
                k: &RlstArray<f64, 2>,
                test_geometry: &impl CellGeometry<T = f64>,
                trial_geometry: &impl CellGeometry<T = f64>,
            ) -> f64 {
                match self {
                    $($name::$case(f) => f.evaluate_singular(
                        test_table, trial_table, point, test_basis, trial_basis, k, test_geometry, trial_geometry,
                    ),)+
                }
            }
        }
    };
}

delegate!(Kind: SingleLayer, DoubleLayer, Adjoint, CurlCurl, NormalNormal);
delegate!(OneTerm: Bare, Scaled);

fn one_term(term: Term) -> OneTerm {
    let kind = match term.kind {
        0 => Kind::SingleLayer(SingleLayerBoundaryIntegrand::new()),
        1 => Kind::DoubleLayer(DoubleLayerBoundaryIntegrand::new()),
        2 => Kind::Adjoint(AdjointDoubleLayerBoundaryIntegrand::new()),
        3 => Kind::CurlCurl(HypersingularCurlCurlBoundaryIntegrand::new()),
        4 => Kind::NormalNormal(HypersingularNormalNormalBoundaryIntegrand::new()),
        kind => panic!("kind {kind}"),
    };
    match term.factor {
        None => OneTerm::Bare(kind),
        Some(factor) => OneTerm::Scaled(BoundaryIntegrandTimesScalar::new(factor, kind)),
    }
}

// ---- what is lent: elements, rules, kernel values

struct LentFamily {
    dofs: [usize; 3],
    tables: Tables<f64>,
}

impl LentFamily {
    fn new(element: Element, tables: &Tables<f64>) -> Self {
        Self {
            dofs: element.map(|n| n as usize),
            tables: tables.clone(),
        }
    }
}

impl ElementFamily for LentFamily {
    type T = f64;
    type CellType = ReferenceCellType;
    type FiniteElement = CiarletElement<f64>;
    fn element(&self, _: ReferenceCellType) -> CiarletElement<f64> {
        CiarletElement::new(self.dofs, self.tables.clone())
    }
}

/// The points of a rule: each is its mark and its number.
fn points(rule: usize, trial: bool, n: usize) -> Vec<f64> {
    (0..n).flat_map(|i| [mark(rule, trial), i as f64]).collect()
}

pub(crate) fn lend_rules(numbers: &Numbers) {
    let touching = |(rule, weights): (usize, &Vec<f64>)| TestTrialNumericalQuadratureDefinition {
        weights: weights.clone(),
        test_points: points(rule, false, numbers.points_of(rule, false)),
        trial_points: points(rule, true, numbers.points_of(rule, true)),
    };
    bempp_quadrature::duffy::lend(numbers.weights.iter().enumerate().map(touching).collect());
    let distant = |weights: &Vec<f64>, trial| NumericalQuadratureDefinition {
        weights: weights.clone(),
        points: points(DISTANT, trial, weights.len()),
    };
    ndelement::quadrature::lend(vec![
        distant(&numbers.test_weights, false),
        distant(&numbers.trial_weights, true),
    ]);
}

/// Copies values that were made beforehand, and notes the pairs it is asked for.
pub struct LentKernel<'a> {
    lent: &'a Numbers,
    asked: Option<RefCell<Vec<[u32; 3]>>>,
}

impl<'a> LentKernel<'a> {
    pub fn new(lent: &'a Numbers, note: bool) -> Self {
        Self {
            lent,
            asked: note.then(RefCell::default),
        }
    }

    fn copy(&self, sources: &[f64], targets: &[f64], result: &mut [f64]) {
        let (test_cell, trial_cell) = (sources[0] as usize, targets[0] as usize);
        let rule = sources[1] as usize / 2;
        result.copy_from_slice(self.lent.kernel(rule, test_cell, trial_cell));
        if let Some(asked) = &self.asked {
            let pattern = if rule == DISTANT { 255 } else { rule };
            asked
                .borrow_mut()
                .push([pattern, test_cell, trial_cell].map(|n| n as u32));
        }
    }

    pub fn take_asked(&self) -> Vec<[u32; 3]> {
        self.asked
            .as_ref()
            .map(|asked| asked.take())
            .unwrap_or_default()
    }
}

impl Kernel for LentKernel<'_> {
    type T = f64;
    fn assemble_pairwise_st(
        &self,
        _: GreenKernelEvalType,
        sources: &[f64],
        targets: &[f64],
        result: &mut [f64],
    ) {
        self.copy(sources, targets, result)
    }
    fn assemble_st(
        &self,
        _: GreenKernelEvalType,
        sources: &[f64],
        targets: &[f64],
        result: &mut [f64],
    ) {
        self.copy(sources, targets, result)
    }
}

pub fn spaces<'a>(
    job: &Job,
    numbers: &Numbers,
    grid: &'a TriangleGrid<'a>,
) -> (TriangleSpace<'a>, TriangleSpace<'a>) {
    let test = LentFamily::new(job.test, &numbers.test_tables);
    let trial = LentFamily::new(job.trial, &numbers.trial_tables);
    (
        FunctionSpace::new(grid, &test),
        FunctionSpace::new(grid, &trial),
    )
}

pub(crate) fn options(job: &Job, numbers: &Numbers) -> BoundaryAssemblerOptions {
    let mut options = BoundaryAssemblerOptions::default();
    options.set_regular_quadrature_degree(Triangle, numbers.test_points);
    options.set_batch_size(job.batch as usize);
    options
}

pub(crate) fn assembler<'o, 'a, I: BoundaryIntegrand<T = f64>>(
    integrand: I,
    numbers: &'a Numbers,
    note: bool,
    options: &'o BoundaryAssemblerOptions,
) -> BoundaryAssembler<'o, f64, I, LentKernel<'a>> {
    let eval_type = match numbers.width {
        1 => GreenKernelEvalType::Value,
        _ => GreenKernelEvalType::ValueDeriv,
    };
    let kernel = KernelEvaluator::new(LentKernel::new(numbers, note), eval_type);
    let table_derivs = (numbers.rows == 3) as usize;
    BoundaryAssembler::new(integrand, kernel, options, numbers.width, table_derivs)
}

// ---- the answer

/// The lists of one element, by `assign_dofs` and `cell_colouring`.
fn space_answer(
    element: Element,
    tables: &Tables<f64>,
    grid: &TriangleGrid,
    space: &TriangleSpace,
) -> Space {
    let (dofs, _, count, owners) = assign_dofs(0, grid, &LentFamily::new(element, tables));
    assert_eq!(space.global_size(), count);
    assert!((0..count).all(|i| space.global_dof_index(i) == i));
    let mut colours = vec![0; dofs.len()];
    for (colour, cells) in space.cell_colouring()[&Triangle].iter().enumerate() {
        for cell in cells {
            colours[*cell] = colour as u32;
        }
    }
    Space {
        dofs: dofs.into_iter().flatten().map(|n| n as u32).collect(),
        count: count as u32,
        owners: owners
            .into_iter()
            .flat_map(|(rank, dim, entity, place)| {
                assert_eq!(rank, 0);
                [dim, entity, place].map(|n| n as u32)
            })
            .collect(),
        colours,
    }
}

fn narrow(list: &[usize]) -> Vec<u32> {
    list.iter().map(|n| *n as u32).collect()
}

fn answer_with<I: BoundaryIntegrand<T = f64>>(
    job: &Job,
    numbers: &Numbers,
    integrand: I,
) -> Answer {
    lend_rules(numbers);
    let grid = TriangleGrid::new(&job.mesh, numbers, false);
    let (test_space, trial_space) = spaces(job, numbers, &grid);
    let options = options(job, numbers);
    let assembler = assembler(integrand, numbers, true, &options);
    let mut matrix = numbers.start(test_space.global_size() * trial_space.global_size());
    let one_rule = numbers.test_points == numbers.trial_points;
    let mut work = vec![];
    if one_rule {
        assembler.assemble_into_memory(&trial_space, &test_space, &mut matrix);
        work = assembler.kernel.kernel.take_asked();
    }
    let singular = door::singular_part(&assembler, &trial_space, &test_space);
    let touching = assembler.kernel.kernel.take_asked();
    if !one_rule {
        work = distant_order(job);
        add_distant(
            &assembler,
            numbers,
            (&test_space, &trial_space),
            &work,
            &mut matrix,
        );
        for ((i, j), x) in singular.rows.iter().zip(&singular.cols).zip(&singular.data) {
            matrix[i + test_space.global_size() * j] += x;
        }
        work.extend(&touching);
    }
    assert!(work.ends_with(&touching));
    Answer {
        test: space_answer(job.test, &numbers.test_tables, &grid, &test_space),
        trial: space_answer(job.trial, &numbers.trial_tables, &grid, &trial_space),
        distant: (work.len() - touching.len()) as u32,
        work,
        entries: Entries {
            rows: narrow(&singular.rows),
            columns: narrow(&singular.cols),
            values: singular.data,
        },
        matrix,
    }
}

// ---- test and trial rules with different point counts

/// The distant pairs in the order of `assemble_into_memory`, from a run with one point a side.
fn distant_order(job: &Job) -> Vec<[u32; 3]> {
    let mut random = crate::random::Random::new(0);
    let points = crate::numbers::Points {
        touching: vec![1; 28],
        test: 1,
        trial: 1,
    };
    let ones = Numbers::new(job, points, crate::numbers::Size::Ordinary, &mut random);
    let mut work = answer_or_panic(job, &ones).work;
    work.retain(|record| record[0] == 255);
    work
}

/// `assemble_into_memory` takes one rule for both sides. With two, its inner function is called, pair by pair.
fn add_distant<I: BoundaryIntegrand<T = f64>>(
    assembler: &BoundaryAssembler<'_, f64, I, LentKernel>,
    numbers: &Numbers,
    spaces: (&TriangleSpace, &TriangleSpace),
    work: &[[u32; 3]],
    matrix: &mut [f64],
) {
    let output = RawData2D {
        data: matrix.as_mut_ptr(),
        shape: [spaces.0.global_size(), spaces.1.global_size()],
    };
    let array = |trial, space: &TriangleSpace, n| {
        let mut at = rlst_dynamic_array2!(f64, [2, n]);
        at.data_mut().copy_from_slice(&points(DISTANT, trial, n));
        let element = space.element(Triangle);
        let shape = element.tabulate_array_shape(assembler.table_derivs, n);
        let mut table = rlst_dynamic_array4!(f64, shape);
        element.tabulate(&at, assembler.table_derivs, &mut table);
        (at, table)
    };
    let (test_points, test_table) = array(false, spaces.0, numbers.test_points);
    let (trial_points, trial_table) = array(true, spaces.1, numbers.trial_points);
    let test = Side {
        points: &test_points,
        weights: &numbers.test_weights,
        table: &test_table,
    };
    let trial = Side {
        points: &trial_points,
        weights: &numbers.trial_weights,
        table: &trial_table,
    };
    for [_, t, r] in work {
        door::distant_pair(
            assembler,
            &output,
            spaces,
            (*t as usize, *r as usize),
            (&test, &trial),
        );
    }
}

fn answer_or_panic(job: &Job, numbers: &Numbers) -> Answer {
    let first = one_term(job.integrand.first);
    match job.integrand.second {
        None => answer_with(job, numbers, first),
        Some(second) => {
            let sum = BoundaryIntegrandSum::new(first, one_term(second));
            answer_with(job, numbers, sum)
        }
    }
}

/// What f gives, or what it says when it panics.
fn caught<R>(f: impl FnOnce() -> R) -> Result<R, String> {
    catch_unwind(AssertUnwindSafe(f)).map_err(|panic| match panic.downcast::<String>() {
        Ok(text) => *text,
        Err(panic) => panic
            .downcast::<&str>()
            .map_or_else(|_| "a panic".to_string(), |text| text.to_string()),
    })
}

/// What the Rust answers, or what it says when it panics.
pub fn answer(job: &Job, numbers: &Numbers) -> Result<Answer, String> {
    caught(|| answer_or_panic(job, numbers))
}

// ---- what a single call gives, for docs/DIFFERENCES.md

/// `assemble_into_memory` on a matrix that is one number short.
pub fn wrong_length(job: &Job, numbers: &Numbers) -> String {
    lend_rules(numbers);
    let grid = TriangleGrid::new(&job.mesh, numbers, false);
    let (test, trial) = spaces(job, numbers, &grid);
    let options = options(job, numbers);
    let assembler = assembler(one_term(job.integrand.first), numbers, false, &options);
    let mut matrix = vec![0.0; test.global_size() * trial.global_size() - 1];
    match caught(|| assembler.assemble_into_memory(&trial, &test, &mut matrix)) {
        Ok(()) => "goes on".to_string(),
        Err(text) => format!("panics: {}", text.replace('\n', " ")),
    }
}

/// The pairs where the test and the trial space have a grid each, with the same cells.
pub fn two_grids(job: &Job, numbers: &Numbers) -> Vec<[u32; 3]> {
    lend_rules(numbers);
    let grids = [0; 2].map(|_| TriangleGrid::new(&job.mesh, numbers, false));
    let (test, _) = spaces(job, numbers, &grids[0]);
    let (_, trial) = spaces(job, numbers, &grids[1]);
    let options = options(job, numbers);
    let assembler = assembler(one_term(job.integrand.first), numbers, true, &options);
    let mut matrix = vec![0.0; test.global_size() * trial.global_size()];
    assembler.assemble_into_memory(&trial, &test, &mut matrix);
    assembler.kernel.kernel.take_asked()
}

/// What `assemble_into_memory` says when it panics, and the rows and columns of the numbers that it has written by then.
pub fn written_before_panic(job: &Job, numbers: &Numbers) -> (String, Vec<(usize, usize)>) {
    lend_rules(numbers);
    let grid = TriangleGrid::new(&job.mesh, numbers, false);
    let (test, trial) = spaces(job, numbers, &grid);
    let options = options(job, numbers);
    let assembler = assembler(one_term(job.integrand.first), numbers, false, &options);
    let rows = test.global_size();
    let start = numbers.start(rows * trial.global_size());
    let mut matrix = start.clone();
    let panic = caught(|| assembler.assemble_into_memory(&trial, &test, &mut matrix));
    let written = (0..matrix.len())
        .filter(|k| matrix[*k] != start[*k])
        .map(|k| (k % rows, k / rows))
        .collect();
    (panic.expect_err("it panics"), written)
}

/// The entries that `assemble_singular` keeps, and those that `assemble_singular_part` has.
pub fn singular_kept(job: &Job, numbers: &Numbers) -> (Vec<f64>, Vec<f64>) {
    lend_rules(numbers);
    let grid = TriangleGrid::new(&job.mesh, numbers, false);
    let (test, trial) = spaces(job, numbers, &grid);
    let options = options(job, numbers);
    let assembler = assembler(one_term(job.integrand.first), numbers, false, &options);
    let kept = assembler.assemble_singular(&trial, &test).data;
    (kept, door::singular_part(&assembler, &trial, &test).data)
}
