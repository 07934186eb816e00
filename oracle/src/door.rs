//! The way into `boundary_assemblers`: this module is built as a child of its `helpers`, so the private functions are in reach. Each function here is one call.
use super::super::*;

type Assembler<'o, I, K> = BoundaryAssembler<'o, f64, I, K>;

/// `assemble_singular_part`.
pub(crate) fn singular_part<Space, I, K>(
    assembler: &Assembler<'_, I, K>,
    trial_space: &Space,
    test_space: &Space,
) -> SparseMatrixData<f64>
where
    Space: FunctionSpaceTrait<T = f64> + Sync,
    I: BoundaryIntegrand<T = f64>,
    K: Kernel<T = f64>,
{
    let shape = [test_space.global_size(), trial_space.global_size()];
    assembler.assemble_singular_part(shape, trial_space, test_space)
}

/// What one side of a distant pair is lent.
pub(crate) struct Side<'a> {
    pub(crate) points: &'a RlstArray<f64, 2>,
    pub(crate) weights: &'a [f64],
    pub(crate) table: &'a RlstArray<f64, 4>,
}

/// `assemble_batch_nonadjacent` on batches of one cell each.
pub(crate) fn distant_pair<Space, I, K>(
    assembler: &Assembler<'_, I, K>,
    output: &RawData2D<f64>,
    spaces: (&Space, &Space),
    cells: (usize, usize),
    sides: (&Side<'_>, &Side<'_>),
) where
    Space: FunctionSpaceTrait<T = f64> + Sync,
    I: BoundaryIntegrand<T = f64>,
    K: Kernel<T = f64>,
{
    let ((test_space, trial_space), (test, trial)) = (spaces, sides);
    assemble_batch_nonadjacent(
        assembler,
        assembler.deriv_size,
        output,
        ReferenceCellType::Triangle,
        ReferenceCellType::Triangle,
        trial_space,
        &[cells.1],
        test_space,
        &[cells.0],
        trial.points,
        trial.weights,
        test.points,
        test.weights,
        trial.table,
        test.table,
    );
}

/// `make_cell_blocks`.
pub(crate) fn cell_blocks(
    pattern: impl Fn(Vec<(usize, usize)>) -> usize,
    grid: &impl Grid<EntityDescriptor = ReferenceCellType>,
    batch: usize,
) -> Vec<(usize, Vec<(usize, usize)>)> {
    make_cell_blocks(|_, _, pairs| pattern(pairs), 28, grid, batch)
}

/// `neighbours`.
pub(crate) fn are_neighbours<G: Grid>(grid: &G, test_cell: usize, trial_cell: usize) -> bool {
    neighbours(grid, grid, test_cell, trial_cell)
}
