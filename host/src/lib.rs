//! The boundary assembler, for Rust: a safe crate over the static library of `crates/seivalto`. Each function is one call of the library, which makes every
//! test itself. `include/seivalto.h` says what each argument means, which lengths are asked, and what the lent numbers are: gradient, jacobian, orientation,
//! rules and how the pattern turns them.
//!
//! [`plan`], [`Numbers::begin`], then [`Run::look`] and the add of the record's kind, until look answers [`Refusal::NoRecordLeft`]. [`sparse_rows`] gathers the
//! lists of a finished entries run. Cells are triangles and quads; for triangles alone the kind list is [`triangles`], and an [`Element`] does for a side.
//!
//! Pointers, lengths and overlap, which the header names among a host's duties, are met by the types. The others stay: some 300 KiB of stack are free; the
//! floating-point state is the default one, round to nearest, no flush to zero, no denormals-are-zero, exceptions masked; of a run only the value last handed
//! back is used, since a [`Run`] is `Copy` and an older one adds a pair again; the lent numbers mean what the header says.
mod ffi;

use std::fmt;

use ffi::{CAdded, CIntegrand, CNumbers, CRun, CTerm};

/// DOFs per vertex (a), per edge (b) and per cell (c). The local order is vertices, edges, interior.
#[derive(Clone, Copy, Debug, PartialEq, Eq)]
#[repr(C)]
pub struct Element {
    pub a: u32,
    pub b: u32,
    pub c: u32,
}

impl Element {
    /// The local DOFs of a cell of that kind, which has as many vertices and as many edges as its kind says.
    pub fn dim(self, kind: u8) -> usize {
        let n = usize::from(kind);
        n * self.a as usize + n * self.b as usize + self.c as usize
    }
}

/// The kind of a triangle, and that of a quad: how many vertices it has.
pub const TRIANGLE: u8 = 3;
pub const QUAD: u8 = 4;

/// The element of triangles and that of quads. That of a kind which no cell is of is not read; where both kinds are present, `a` and `b` are the same in both.
/// An [`Element`] alone becomes that of both kinds.
#[derive(Clone, Copy, Debug, PartialEq, Eq)]
#[repr(C)]
pub struct Elements {
    pub triangle: Element,
    pub quad: Element,
}

impl From<Element> for Elements {
    fn from(element: Element) -> Elements {
        Elements {
            triangle: element,
            quad: element,
        }
    }
}

impl Elements {
    /// The local DOFs of a cell of that kind.
    pub fn dim(self, kind: u8) -> usize {
        match kind {
            TRIANGLE => self.triangle.dim(TRIANGLE),
            _ => self.quad.dim(QUAD),
        }
    }

    /// How many DOFs cells of these kinds have, each counted by itself: the length of a DOF list, and a third of that of an owner list.
    pub fn places(self, kinds: &[u8]) -> usize {
        kinds.iter().map(|kind| self.dim(*kind)).sum()
    }
}

const MOST_CELLS: usize = 2_048;

/// The kind list of so many triangles, up to 2,048, which is as many cells as a mesh may have.
pub fn triangles(cells: u32) -> &'static [u8] {
    static KINDS: [u8; MOST_CELLS] = [TRIANGLE; MOST_CELLS];
    &KINDS[..MOST_CELLS.min(cells as usize)]
}

/// A term: its kind alone or with a factor. Kinds: 0 single layer, 1 double layer, 2 adjoint double layer, 3 curl-curl, 4 normal-normal. The hypersingular
/// operator is kind 3 for Laplace, and kind 3 plus −k² times kind 4 for Helmholtz.
#[derive(Clone, Copy, Debug, PartialEq)]
pub enum Term {
    Bare(u32),
    Scaled(f64, u32),
}

/// One or two terms. Where `terms` is 1 the second is not read.
#[derive(Clone, Copy, Debug, PartialEq)]
pub struct Integrand {
    pub terms: u32,
    pub first: Term,
    pub second: Term,
}

impl Integrand {
    pub fn one(first: Term) -> Integrand {
        Integrand {
            terms: 1,
            first,
            second: Term::Bare(0),
        }
    }

    pub fn two(first: Term, second: Term) -> Integrand {
        Integrand {
            terms: 2,
            first,
            second,
        }
    }
}

/// The mesh: its sizes, the kind of each cell ([`TRIANGLE`] or [`QUAD`]; [`triangles`] has the list of triangles alone), and for each cell, one after the
/// other, as many vertex numbers and as many edge numbers as its kind says. Local edges of a triangle join local vertices (1,2), (0,2), (0,1), those of a quad
/// (0,1), (0,2), (1,3), (2,3).
#[derive(Clone, Copy, Debug)]
pub struct Mesh<'a> {
    pub cells: u32,
    pub vertices: u32,
    pub edges: u32,
    pub kinds: &'a [u8],
    pub cell_vertices: &'a [u32],
    pub cell_edges: &'a [u32],
}

/// The lists that planning writes.
#[derive(Debug)]
pub struct Lists<'a> {
    pub test_dofs: &'a mut [u32],
    pub trial_dofs: &'a mut [u32],
    pub test_colours: &'a mut [u32],
    pub trial_colours: &'a mut [u32],
    pub test_owners: &'a mut [u32],
    pub trial_owners: &'a mut [u32],
    pub work: &'a mut [u32],
}

/// The plan that the calls of a run are lent: the mesh's kind list, and three of the lists that planning wrote.
#[derive(Clone, Copy, Debug)]
pub struct Plan<'a> {
    pub kinds: &'a [u8],
    pub test_dofs: &'a [u32],
    pub trial_dofs: &'a [u32],
    pub work: &'a [u32],
}

/// Touching pairs per two kinds, that of the test cell first.
#[derive(Clone, Copy, Debug, PartialEq, Eq)]
#[repr(C)]
pub struct KindPairs {
    pub triangle_triangle: u32,
    pub triangle_quad: u32,
    pub quad_triangle: u32,
    pub quad_quad: u32,
}

/// The numbers that planning hands back. `triangles` and `quads` count the cells of each kind, `touching` and `distant` the ordered pairs of cells that share a
/// vertex and that share none, `pairs` the touching ones per two kinds; a dense matrix has `rows` times `columns` numbers.
#[derive(Clone, Copy, Debug, PartialEq)]
pub struct Numbers {
    pub cells: u32,
    pub vertices: u32,
    pub edges: u32,
    pub triangles: u32,
    pub quads: u32,
    pub touching: u32,
    pub distant: u32,
    pub pairs: KindPairs,
    pub rows: u32,
    pub columns: u32,
    pub test: Elements,
    pub trial: Elements,
    pub integrand: Integrand,
}

/// A run, which every call hands back. Keep the one last handed back, and no other.
#[derive(Clone, Copy, Debug, PartialEq)]
pub struct Run {
    pub numbers: Numbers,
    pub entries: bool,
    pub position: u32,
}

/// A record of the work list: pattern (0 to 148 touching, 255 distant), test cell, trial cell.
#[derive(Clone, Copy, Debug, PartialEq, Eq)]
#[repr(C)]
pub struct Record {
    pub pattern: u32,
    pub test_cell: u32,
    pub trial_cell: u32,
}

/// What an add of a distant pair is lent beside the plan and the matrix. Each pair may have its own rule.
#[derive(Clone, Copy, Debug)]
pub struct Distant<'a> {
    pub test_points: usize,
    pub trial_points: usize,
    pub test_weights: &'a [f64],
    pub trial_weights: &'a [f64],
    pub test_table: &'a [f64],
    pub trial_table: &'a [f64],
    pub kernel: &'a [f64],
    pub test_geometry: &'a [f64],
    pub trial_geometry: &'a [f64],
}

/// What an add of a touching pair, or the entries call, is lent beside the plan and what it writes. The rule is one for the record's pattern, turned by it.
#[derive(Clone, Copy, Debug)]
pub struct Touching<'a> {
    pub points: usize,
    pub weights: &'a [f64],
    pub test_table: &'a [f64],
    pub trial_table: &'a [f64],
    pub kernel: &'a [f64],
    pub test_geometry: &'a [f64],
    pub trial_geometry: &'a [f64],
}

/// The lists that the entries call writes.
#[derive(Debug)]
pub struct EntryLists<'a> {
    pub rows: &'a mut [u32],
    pub columns: &'a mut [u32],
    pub values: &'a mut [f64],
}

/// The entries of a finished entries run: its three lists.
#[derive(Clone, Copy, Debug)]
pub struct Entries<'a> {
    pub rows: &'a [u32],
    pub columns: &'a [u32],
    pub values: &'a [f64],
}

/// The lists that [`sparse_rows`] writes. `row_starts` takes one number more than there are rows; the others take as many as values are kept, and lists as long
/// as the entries always do. What is past the written numbers stays as it was.
#[derive(Debug)]
pub struct SparseLists<'a> {
    pub row_starts: &'a mut [u64],
    pub columns: &'a mut [u32],
    pub values: &'a mut [f64],
}

/// Sparse rows: row r has the places `row_starts[r]..row_starts[r + 1]` of `columns` and `values`.
#[derive(Clone, Debug, PartialEq)]
pub struct SparseRows {
    pub row_starts: Vec<u64>,
    pub columns: Vec<u32>,
    pub values: Vec<f64>,
}

/// Why a call was turned down.
#[derive(Clone, Copy, Debug, PartialEq, Eq)]
pub enum Refusal {
    /// 1: the number of cells, or the length of the vertex list.
    Cells,
    /// 2: the number of vertices, or a vertex number.
    Vertices,
    /// 3: the number of edges, the length of the edge list, an edge number, or the edge rule.
    Edges,
    /// 4: the dim of an element, or `a` or `b` not the same for both kinds.
    Dim,
    /// 5: the batch size.
    Batch,
    /// 6: the integrand.
    Integrand,
    /// 7: a pattern outside the list.
    Pattern,
    /// 8: the length of a list that planning writes.
    ListLength,
    /// 9: a point count.
    PointCount,
    /// 10: the length of a lent weight, table, kernel or geometry list.
    LentLength,
    /// 11: one of those numbers.
    LentNumber,
    /// 20: no record is left.
    NoRecordLeft,
    /// 21: the numbers of the run, the kind list, or the length of plan, matrix or entry lists.
    Run,
    /// 22: the record at the run's position.
    Record,
    /// 23: the record, or the run, is of the other kind.
    Kind,
    /// 24: the length of a list that sparse rows are written into.
    SparseLength,
    /// 25: the lengths of entry lists, or a row or column.
    Entries,
    /// 26: the length of the kind list, or a kind.
    Kinds,
}

const NUMBERED: [(u32, Refusal); 18] = [
    (1, Refusal::Cells),
    (2, Refusal::Vertices),
    (3, Refusal::Edges),
    (4, Refusal::Dim),
    (5, Refusal::Batch),
    (6, Refusal::Integrand),
    (7, Refusal::Pattern),
    (8, Refusal::ListLength),
    (9, Refusal::PointCount),
    (10, Refusal::LentLength),
    (11, Refusal::LentNumber),
    (20, Refusal::NoRecordLeft),
    (21, Refusal::Run),
    (22, Refusal::Record),
    (23, Refusal::Kind),
    (24, Refusal::SparseLength),
    (25, Refusal::Entries),
    (26, Refusal::Kinds),
];

impl Refusal {
    /// The number that the paper gives it.
    pub fn number(self) -> u32 {
        NUMBERED
            .iter()
            .find(|(_, refusal)| *refusal == self)
            .expect("every refusal is numbered")
            .0
    }

    /// The refusal of that number, if there is one.
    pub fn from_number(number: u32) -> Option<Refusal> {
        NUMBERED
            .iter()
            .find(|(n, _)| *n == number)
            .map(|(_, refusal)| *refusal)
    }
}

impl fmt::Display for Refusal {
    fn fmt(&self, f: &mut fmt::Formatter<'_>) -> fmt::Result {
        write!(f, "refused {} ({:?})", self.number(), self)
    }
}

impl std::error::Error for Refusal {}

/// What a call with that refusal answers. That it is 0 or one of the numbers above is proved for each call: `plan-among` and the like in
/// `crates/c_forms/specs/Numbers.antt`.
fn answered<T>(refusal: u32, answer: T) -> Result<T, Refusal> {
    if refusal == 0 {
        return Ok(answer);
    }
    Err(Refusal::from_number(refusal).expect("the library answers a refusal of the list"))
}

impl From<Term> for CTerm {
    fn from(term: Term) -> CTerm {
        match term {
            Term::Bare(kind) => CTerm {
                scaled: 0,
                kind,
                factor: 0.0,
            },
            Term::Scaled(factor, kind) => CTerm {
                scaled: 1,
                kind,
                factor,
            },
        }
    }
}

impl From<CTerm> for Term {
    fn from(term: CTerm) -> Term {
        match term.scaled {
            0 => Term::Bare(term.kind),
            _ => Term::Scaled(term.factor, term.kind),
        }
    }
}

impl From<Integrand> for CIntegrand {
    fn from(f: Integrand) -> CIntegrand {
        CIntegrand {
            terms: f.terms,
            first: f.first.into(),
            second: f.second.into(),
        }
    }
}

impl From<CIntegrand> for Integrand {
    fn from(f: CIntegrand) -> Integrand {
        Integrand {
            terms: f.terms,
            first: f.first.into(),
            second: f.second.into(),
        }
    }
}

impl From<Numbers> for CNumbers {
    fn from(n: Numbers) -> CNumbers {
        CNumbers {
            cells: n.cells,
            vertices: n.vertices,
            edges: n.edges,
            triangles: n.triangles,
            quads: n.quads,
            touching: n.touching,
            distant: n.distant,
            pairs: n.pairs,
            rows: n.rows,
            columns: n.columns,
            test: n.test,
            trial: n.trial,
            integrand: n.integrand.into(),
        }
    }
}

impl From<CNumbers> for Numbers {
    fn from(n: CNumbers) -> Numbers {
        Numbers {
            cells: n.cells,
            vertices: n.vertices,
            edges: n.edges,
            triangles: n.triangles,
            quads: n.quads,
            touching: n.touching,
            distant: n.distant,
            pairs: n.pairs,
            rows: n.rows,
            columns: n.columns,
            test: n.test,
            trial: n.trial,
            integrand: n.integrand.into(),
        }
    }
}

impl From<Run> for CRun {
    fn from(run: Run) -> CRun {
        CRun {
            numbers: run.numbers.into(),
            entries: run.entries.into(),
            position: run.position,
        }
    }
}

impl From<CRun> for Run {
    fn from(run: CRun) -> Run {
        Run {
            numbers: run.numbers.into(),
            entries: run.entries != 0,
            position: run.position,
        }
    }
}

/// Plans, and writes the seven lists. An element of a side is one for each kind ([`Elements`]), or an [`Element`] for both.
pub fn plan(
    mesh: Mesh<'_>,
    test: impl Into<Elements>,
    trial: impl Into<Elements>,
    batch: u32,
    integrand: Integrand,
    lists: Lists<'_>,
) -> Result<Numbers, Refusal> {
    // SAFETY: each pointer and length is a slice's, and a `&mut` slice overlaps no other; the library asks nothing more.
    let planned = unsafe {
        ffi::seivalto_plan(
            mesh.cells,
            mesh.vertices,
            mesh.edges,
            mesh.kinds.as_ptr(),
            mesh.kinds.len(),
            mesh.cell_vertices.as_ptr(),
            mesh.cell_vertices.len(),
            mesh.cell_edges.as_ptr(),
            mesh.cell_edges.len(),
            test.into(),
            trial.into(),
            batch,
            integrand.into(),
            lists.test_dofs.as_mut_ptr(),
            lists.test_dofs.len(),
            lists.trial_dofs.as_mut_ptr(),
            lists.trial_dofs.len(),
            lists.test_colours.as_mut_ptr(),
            lists.test_colours.len(),
            lists.trial_colours.as_mut_ptr(),
            lists.trial_colours.len(),
            lists.test_owners.as_mut_ptr(),
            lists.test_owners.len(),
            lists.trial_owners.as_mut_ptr(),
            lists.trial_owners.len(),
            lists.work.as_mut_ptr(),
            lists.work.len(),
        )
    };
    answered(planned.refusal, planned.numbers.into())
}

impl Numbers {
    /// A dense run, at the first record.
    pub fn begin(self) -> Run {
        // SAFETY: the call is lent nothing.
        unsafe { ffi::seivalto_begin(self.into()) }.into()
    }

    /// An entries run, at the first touching record.
    pub fn begin_entries(self) -> Run {
        // SAFETY: the call is lent nothing.
        unsafe { ffi::seivalto_begin_entries(self.into()) }.into()
    }

    /// The length of the entry lists of an entries run: the entries of all touching pairs.
    pub fn entry_count(self) -> usize {
        let p = self.pairs;
        [
            (p.triangle_triangle, TRIANGLE, TRIANGLE),
            (p.triangle_quad, TRIANGLE, QUAD),
            (p.quad_triangle, QUAD, TRIANGLE),
            (p.quad_quad, QUAD, QUAD),
        ]
        .iter()
        .map(|&(count, test, trial)| count as usize * self.test.dim(test) * self.trial.dim(trial))
        .sum()
    }

    /// The entries of a finished entries run as sparse rows, in new lists: `rows` + 1 row starts, and columns and values as many as entries at first.
    pub fn sparse_rows(self, entries: Entries<'_>) -> Result<SparseRows, Refusal> {
        let mut gathered = SparseRows {
            row_starts: vec![0; self.rows as usize + 1],
            columns: vec![0; entries.rows.len()],
            values: vec![0.0; entries.rows.len()],
        };
        let lists = SparseLists {
            row_starts: &mut gathered.row_starts,
            columns: &mut gathered.columns,
            values: &mut gathered.values,
        };
        let kept = sparse_rows(entries, self.rows, self.columns, lists)? as usize;
        gathered.columns.truncate(kept);
        gathered.values.truncate(kept);
        Ok(gathered)
    }
}

/// Writes the entries as sparse rows, and answers how many values are kept. Entries with the same row and column are added in run order, starting from the
/// first, as IEEE 754 has it; the columns of a row rise. `row_count` and `column_count` are the rows and columns of planning's numbers.
pub fn sparse_rows(
    entries: Entries<'_>,
    row_count: u32,
    column_count: u32,
    lists: SparseLists<'_>,
) -> Result<u64, Refusal> {
    // SAFETY: each pointer and length is a slice's, and the `&mut` slices overlap no other; the library asks nothing more.
    let gathered = unsafe {
        ffi::seivalto_sparse_rows(
            entries.rows.as_ptr(),
            entries.rows.len(),
            entries.columns.as_ptr(),
            entries.columns.len(),
            entries.values.as_ptr(),
            entries.values.len(),
            row_count,
            column_count,
            lists.row_starts.as_mut_ptr(),
            lists.row_starts.len(),
            lists.columns.as_mut_ptr(),
            lists.columns.len(),
            lists.values.as_mut_ptr(),
            lists.values.len(),
        )
    };
    answered(gathered.refusal, gathered.kept)
}

impl Run {
    /// The run at the position that a call hands back. That nothing else of it changes is proved for each call: `moved` in `crates/c_forms/specs/Forms.antt`.
    fn at(self, position: u32) -> Run {
        Run { position, ..self }
    }

    fn added(self, answer: CAdded) -> (Run, Result<(), Refusal>) {
        (self.at(answer.run.position), answered(answer.refusal, ()))
    }

    /// The record at the run's position.
    pub fn look(self, plan: Plan<'_>) -> (Run, Result<Record, Refusal>) {
        // SAFETY: each pointer and length is a slice's; the library asks nothing more.
        let looked = unsafe {
            ffi::seivalto_look(
                self.into(),
                plan.kinds.as_ptr(),
                plan.kinds.len(),
                plan.test_dofs.as_ptr(),
                plan.test_dofs.len(),
                plan.trial_dofs.as_ptr(),
                plan.trial_dofs.len(),
                plan.work.as_ptr(),
                plan.work.len(),
            )
        };
        (self.at(looked.run.position), answered(looked.refusal, looked.record))
    }

    /// Adds the local matrix of the distant pair at the run's position.
    pub fn add_distant(
        self,
        plan: Plan<'_>,
        lent: Distant<'_>,
        matrix: &mut [f64],
    ) -> (Run, Result<(), Refusal>) {
        // SAFETY: each pointer and length is a slice's, and the `&mut` slice overlaps no other; the library asks nothing more.
        self.added(unsafe {
            ffi::seivalto_add_distant(
                self.into(),
                plan.kinds.as_ptr(),
                plan.kinds.len(),
                plan.test_dofs.as_ptr(),
                plan.test_dofs.len(),
                plan.trial_dofs.as_ptr(),
                plan.trial_dofs.len(),
                plan.work.as_ptr(),
                plan.work.len(),
                lent.test_points,
                lent.trial_points,
                lent.test_weights.as_ptr(),
                lent.test_weights.len(),
                lent.trial_weights.as_ptr(),
                lent.trial_weights.len(),
                lent.test_table.as_ptr(),
                lent.test_table.len(),
                lent.trial_table.as_ptr(),
                lent.trial_table.len(),
                lent.kernel.as_ptr(),
                lent.kernel.len(),
                lent.test_geometry.as_ptr(),
                lent.test_geometry.len(),
                lent.trial_geometry.as_ptr(),
                lent.trial_geometry.len(),
                matrix.as_mut_ptr(),
                matrix.len(),
            )
        })
    }

    /// Adds the local matrix of the touching pair at the run's position.
    pub fn add_touching(
        self,
        plan: Plan<'_>,
        lent: Touching<'_>,
        matrix: &mut [f64],
    ) -> (Run, Result<(), Refusal>) {
        // SAFETY: each pointer and length is a slice's, and the `&mut` slice overlaps no other; the library asks nothing more.
        self.added(unsafe {
            ffi::seivalto_add_touching(
                self.into(),
                plan.kinds.as_ptr(),
                plan.kinds.len(),
                plan.test_dofs.as_ptr(),
                plan.test_dofs.len(),
                plan.trial_dofs.as_ptr(),
                plan.trial_dofs.len(),
                plan.work.as_ptr(),
                plan.work.len(),
                lent.points,
                lent.weights.as_ptr(),
                lent.weights.len(),
                lent.test_table.as_ptr(),
                lent.test_table.len(),
                lent.trial_table.as_ptr(),
                lent.trial_table.len(),
                lent.kernel.as_ptr(),
                lent.kernel.len(),
                lent.test_geometry.as_ptr(),
                lent.test_geometry.len(),
                lent.trial_geometry.as_ptr(),
                lent.trial_geometry.len(),
                matrix.as_mut_ptr(),
                matrix.len(),
            )
        })
    }

    /// Of an entries run: writes the local entries of the touching pair at the run's position.
    pub fn add_entries(
        self,
        plan: Plan<'_>,
        lent: Touching<'_>,
        lists: EntryLists<'_>,
    ) -> (Run, Result<(), Refusal>) {
        // SAFETY: each pointer and length is a slice's, and the `&mut` slices overlap no other; the library asks nothing more.
        self.added(unsafe {
            ffi::seivalto_add_entries(
                self.into(),
                plan.kinds.as_ptr(),
                plan.kinds.len(),
                plan.test_dofs.as_ptr(),
                plan.test_dofs.len(),
                plan.trial_dofs.as_ptr(),
                plan.trial_dofs.len(),
                plan.work.as_ptr(),
                plan.work.len(),
                lent.points,
                lent.weights.as_ptr(),
                lent.weights.len(),
                lent.test_table.as_ptr(),
                lent.test_table.len(),
                lent.trial_table.as_ptr(),
                lent.trial_table.len(),
                lent.kernel.as_ptr(),
                lent.kernel.len(),
                lent.test_geometry.as_ptr(),
                lent.test_geometry.len(),
                lent.trial_geometry.as_ptr(),
                lent.trial_geometry.len(),
                lists.rows.as_mut_ptr(),
                lists.rows.len(),
                lists.columns.as_mut_ptr(),
                lists.columns.len(),
                lists.values.as_mut_ptr(),
                lists.values.len(),
            )
        })
    }
}

#[cfg(test)]
mod tests {
    use super::*;

    #[test]
    fn refusals_and_their_numbers() {
        let numbers: Vec<u32> = (0..100)
            .filter(|n| Refusal::from_number(*n).is_some())
            .collect();
        assert_eq!(
            numbers,
            [1, 2, 3, 4, 5, 6, 7, 8, 9, 10, 11, 20, 21, 22, 23, 24, 25, 26]
        );
        for n in numbers {
            assert_eq!(Refusal::from_number(n).map(Refusal::number), Some(n));
        }
        assert_eq!(
            Refusal::NoRecordLeft.to_string(),
            "refused 20 (NoRecordLeft)"
        );
    }

    #[test]
    fn dims_and_places() {
        let element = Element { a: 1, b: 2, c: 1 };
        let elements = Elements {
            triangle: element,
            quad: Element { a: 1, b: 0, c: 5 },
        };
        assert_eq!((element.dim(TRIANGLE), element.dim(QUAD)), (10, 13));
        assert_eq!((elements.dim(TRIANGLE), elements.dim(QUAD)), (10, 9));
        assert_eq!(elements.places(&[TRIANGLE, QUAD, QUAD]), 28);
        assert_eq!(Elements::from(element).quad, element);
    }

    #[test]
    fn kinds_of_triangles() {
        for cells in [0, 1, 7, 2_048] {
            assert_eq!(triangles(cells), vec![3; cells as usize]);
        }
        assert_eq!(triangles(u32::MAX).len(), 2_048);
    }
}
