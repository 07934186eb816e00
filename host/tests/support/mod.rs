//! Meshes, buffers and lent numbers for the tests.
#![allow(dead_code)] // each test program uses a part
use seivalto::*;

pub const VERTEX_ELEMENT: Element = Element { a: 1, b: 0, c: 0 };
pub const SINGLE_LAYER: Integrand = Integrand {
    terms: 1,
    first: Term::Bare(0),
    second: Term::Bare(0),
};

/// What a list holds before a call.
pub const BLANK: u32 = 77;

#[derive(Clone, Debug)]
pub struct OwnedMesh {
    pub cells: u32,
    pub vertices: u32,
    pub edges: u32,
    pub kinds: Vec<u8>,
    pub cell_vertices: Vec<u32>,
    pub cell_edges: Vec<u32>,
}

/// The local vertices that the local edges of a cell of that kind join.
pub fn ends(kind: u8) -> &'static [(usize, usize)] {
    match kind {
        TRIANGLE => &[(1, 2), (0, 2), (0, 1)],
        _ => &[(0, 1), (0, 2), (1, 3), (2, 3)],
    }
}

impl OwnedMesh {
    /// A mesh of cells with these vertices. Edges get their numbers as they are met, cell after cell.
    pub fn of_cells(vertices: u32, cells: &[Vec<u32>]) -> OwnedMesh {
        let mut numbers = std::collections::HashMap::new();
        let mut cell_edges = Vec::new();
        for cell in cells {
            for &(k, l) in ends(cell.len() as u8) {
                let two = (cell[k].min(cell[l]), cell[k].max(cell[l]));
                let next = numbers.len() as u32;
                cell_edges.push(*numbers.entry(two).or_insert(next));
            }
        }
        OwnedMesh {
            cells: cells.len() as u32,
            vertices,
            edges: numbers.len() as u32,
            kinds: cells.iter().map(|cell| cell.len() as u8).collect(),
            cell_vertices: cells.concat(),
            cell_edges,
        }
    }

    pub fn lent(&self) -> Mesh<'_> {
        Mesh {
            cells: self.cells,
            vertices: self.vertices,
            edges: self.edges,
            kinds: &self.kinds,
            cell_vertices: &self.cell_vertices,
            cell_edges: &self.cell_edges,
        }
    }

    /// The numbers of each cell in a flat list.
    pub fn each<'a>(&self, list: &'a [u32]) -> Vec<&'a [u32]> {
        let mut rest = list;
        self.kinds
            .iter()
            .map(|kind| {
                let (cell, after) = rest.split_at(usize::from(*kind));
                rest = after;
                cell
            })
            .collect()
    }
}

/// Mesh M of the paper.
pub fn mesh_m() -> OwnedMesh {
    OwnedMesh {
        cells: 3,
        vertices: 7,
        edges: 8,
        kinds: vec![TRIANGLE; 3],
        cell_vertices: vec![0, 1, 2, 1, 3, 2, 4, 5, 6],
        cell_edges: vec![0, 1, 2, 3, 0, 4, 5, 6, 7],
    }
}

/// An octahedron: vertices 0 and 1, 2 and 3, 4 and 5 are opposite.
pub fn octahedron() -> OwnedMesh {
    OwnedMesh {
        cells: 8,
        vertices: 6,
        edges: 12,
        kinds: vec![TRIANGLE; 8],
        cell_vertices: vec![
            0, 2, 4, 2, 1, 4, 1, 3, 4, 3, 0, 4, 2, 0, 5, 1, 2, 5, 3, 1, 5, 0, 3, 5,
        ],
        cell_edges: vec![
            0, 1, 2, 3, 0, 4, 5, 3, 6, 1, 5, 7, 8, 9, 2, 9, 10, 4, 10, 11, 6, 11, 8, 7,
        ],
    }
}

/// A triangle and a quad that share an edge.
pub fn edge_shared() -> OwnedMesh {
    OwnedMesh {
        cells: 2,
        vertices: 5,
        edges: 6,
        kinds: vec![TRIANGLE, QUAD],
        cell_vertices: vec![0, 1, 2, 1, 3, 2, 4],
        cell_edges: vec![0, 1, 2, 3, 0, 4, 5],
    }
}

/// The same two, and a triangle and a quad that share nothing.
pub fn edge_shared_and_two_more() -> OwnedMesh {
    OwnedMesh {
        cells: 4,
        vertices: 12,
        edges: 13,
        kinds: vec![TRIANGLE, QUAD, TRIANGLE, QUAD],
        cell_vertices: vec![0, 1, 2, 1, 3, 2, 4, 5, 6, 7, 8, 9, 10, 11],
        cell_edges: vec![0, 1, 2, 3, 0, 4, 5, 6, 7, 8, 9, 10, 11, 12],
    }
}

/// A square of n times n squares, each cut into two triangles.
pub fn square(n: u32) -> OwnedMesh {
    let at = |i: u32, j: u32| i + (n + 1) * j;
    let mut cells = Vec::new();
    for j in 0..n {
        for i in 0..n {
            cells.push(vec![at(i, j), at(i + 1, j), at(i, j + 1)]);
            cells.push(vec![at(i + 1, j + 1), at(i, j + 1), at(i + 1, j)]);
        }
    }
    OwnedMesh::of_cells((n + 1) * (n + 1), &cells)
}

/// The patterns in the order of the table: of test kind n and trial kind k one shared vertex, a shared edge in both directions, and the identical cell. Each is
/// a list of (test place, trial place).
pub fn table() -> Vec<(u8, u8, Vec<(usize, usize)>)> {
    let mut table = Vec::new();
    for (n, k) in [(3, 3), (3, 4), (4, 3), (4, 4)] {
        for i in 0..usize::from(n) {
            for j in 0..usize::from(k) {
                table.push((n, k, vec![(i, j)]));
            }
        }
        for &(e0, e1) in ends(n) {
            for &(g0, g1) in ends(k) {
                table.push((n, k, vec![(e0, g0), (e1, g1)]));
                table.push((n, k, vec![(e1, g0), (e0, g1)]));
            }
        }
        if n == k {
            table.push((n, k, (0..usize::from(n)).map(|i| (i, i)).collect()));
        }
    }
    table
}

#[derive(Clone, Debug, PartialEq, Eq)]
pub struct OwnedLists {
    pub kinds: Vec<u8>,
    pub test_dofs: Vec<u32>,
    pub trial_dofs: Vec<u32>,
    pub test_colours: Vec<u32>,
    pub trial_colours: Vec<u32>,
    pub test_owners: Vec<u32>,
    pub trial_owners: Vec<u32>,
    pub work: Vec<u32>,
}

impl OwnedLists {
    /// The mesh's kinds, and lists of the right lengths.
    pub fn blank(kinds: &[u8], test: Elements, trial: Elements) -> OwnedLists {
        let cells = kinds.len();
        OwnedLists {
            kinds: kinds.to_vec(),
            test_dofs: vec![BLANK; test.places(kinds)],
            trial_dofs: vec![BLANK; trial.places(kinds)],
            test_colours: vec![BLANK; cells],
            trial_colours: vec![BLANK; cells],
            test_owners: vec![BLANK; 3 * test.places(kinds)],
            trial_owners: vec![BLANK; 3 * trial.places(kinds)],
            work: vec![BLANK; 3 * cells * cells],
        }
    }

    pub fn lent(&mut self) -> Lists<'_> {
        Lists {
            test_dofs: &mut self.test_dofs,
            trial_dofs: &mut self.trial_dofs,
            test_colours: &mut self.test_colours,
            trial_colours: &mut self.trial_colours,
            test_owners: &mut self.test_owners,
            trial_owners: &mut self.trial_owners,
            work: &mut self.work,
        }
    }

    pub fn plan(&self) -> Plan<'_> {
        Plan {
            kinds: &self.kinds,
            test_dofs: &self.test_dofs,
            trial_dofs: &self.trial_dofs,
            work: &self.work,
        }
    }

    /// The DOFs of a cell of test.
    pub fn test_dofs_of(&self, elements: Elements, cell: u32) -> &[u32] {
        self.dofs_of(&self.test_dofs, elements, cell)
    }

    /// The DOFs of a cell of trial.
    pub fn trial_dofs_of(&self, elements: Elements, cell: u32) -> &[u32] {
        self.dofs_of(&self.trial_dofs, elements, cell)
    }

    fn dofs_of<'a>(&self, list: &'a [u32], elements: Elements, cell: u32) -> &'a [u32] {
        let cell = cell as usize;
        &list[elements.places(&self.kinds[..cell])..][..elements.dim(self.kinds[cell])]
    }
}

/// Plans on lists of the right lengths.
pub fn planned(
    mesh: &OwnedMesh,
    test: impl Into<Elements>,
    trial: impl Into<Elements>,
    batch: u32,
    integrand: Integrand,
) -> (Numbers, OwnedLists) {
    let (test, trial) = (test.into(), trial.into());
    let mut lists = OwnedLists::blank(&mesh.kinds, test, trial);
    let numbers = plan(mesh.lent(), test, trial, batch, integrand, lists.lent())
        .expect("the planning is good");
    (numbers, lists)
}

/// Numbers from 1/8 to 2, another list for each seed.
pub fn numbers(length: usize, seed: u64) -> Vec<f64> {
    let mut state = seed.wrapping_mul(0x9e37_79b9_7f4a_7c15) | 1;
    (0..length)
        .map(|_| {
            state = state
                .wrapping_mul(6_364_136_223_846_793_005)
                .wrapping_add(1_442_695_040_888_963_407);
            0.125 + 1.875 * ((state >> 11) as f64 / (1u64 << 53) as f64)
        })
        .collect()
}

/// K kernel values of a point, and D rows of a table.
#[derive(Clone, Copy, Debug)]
pub struct Widths {
    pub k: usize,
    pub d: usize,
}

/// Those of kinds 0 and 4.
pub const NARROW: Widths = Widths { k: 1, d: 1 };

/// Runs on a stack of so many KiB.
pub fn on_a_stack_of(kib: usize, run: impl FnOnce() + Send + 'static) {
    let thread = std::thread::Builder::new()
        .stack_size(kib * 1024)
        .spawn(run);
    thread.expect("a thread").join().expect("the run is good");
}

/// What an add of a distant pair is lent.
#[derive(Clone, Debug)]
pub struct OwnedDistant {
    pub test_points: usize,
    pub trial_points: usize,
    pub test_weights: Vec<f64>,
    pub trial_weights: Vec<f64>,
    pub test_table: Vec<f64>,
    pub trial_table: Vec<f64>,
    pub kernel: Vec<f64>,
    pub test_geometry: Vec<f64>,
    pub trial_geometry: Vec<f64>,
}

impl OwnedDistant {
    /// For cells with these dims.
    pub fn new(t: usize, r: usize, test: usize, trial: usize, seed: u64) -> OwnedDistant {
        OwnedDistant::wide(NARROW, t, r, test, trial, seed)
    }

    pub fn wide(
        w: Widths,
        t: usize,
        r: usize,
        test: usize,
        trial: usize,
        seed: u64,
    ) -> OwnedDistant {
        OwnedDistant {
            test_points: t,
            trial_points: r,
            test_weights: numbers(t, seed),
            trial_weights: numbers(r, seed + 1),
            test_table: numbers(w.d * t * test, seed + 2),
            trial_table: numbers(w.d * r * trial, seed + 3),
            kernel: numbers(w.k * t * r, seed + 4),
            test_geometry: numbers(10 * t, seed + 5),
            trial_geometry: numbers(10 * r, seed + 6),
        }
    }

    pub fn lent(&self) -> Distant<'_> {
        Distant {
            test_points: self.test_points,
            trial_points: self.trial_points,
            test_weights: &self.test_weights,
            trial_weights: &self.trial_weights,
            test_table: &self.test_table,
            trial_table: &self.trial_table,
            kernel: &self.kernel,
            test_geometry: &self.test_geometry,
            trial_geometry: &self.trial_geometry,
        }
    }

    /// Local entry (i, j) of one bare term of kind 0, by the paper.
    pub fn single_layer(&self, i: usize, j: usize) -> f64 {
        let (t, r) = (self.test_points, self.trial_points);
        let mut sum = 0.0;
        for p in 0..t {
            for q in 0..r {
                let value = self.kernel[p + t * q]
                    * self.test_table[p + t * i]
                    * self.trial_table[q + r * j];
                sum += value
                    * (self.trial_weights[q] * self.trial_geometry[10 * q])
                    * (self.test_weights[p] * self.test_geometry[10 * p]);
            }
        }
        sum
    }
}

/// What an add of a touching pair is lent.
#[derive(Clone, Debug)]
pub struct OwnedTouching {
    pub points: usize,
    pub weights: Vec<f64>,
    pub test_table: Vec<f64>,
    pub trial_table: Vec<f64>,
    pub kernel: Vec<f64>,
    pub test_geometry: Vec<f64>,
    pub trial_geometry: Vec<f64>,
}

impl OwnedTouching {
    /// For cells with these dims.
    pub fn new(points: usize, test: usize, trial: usize, seed: u64) -> OwnedTouching {
        OwnedTouching::wide(NARROW, points, test, trial, seed)
    }

    pub fn wide(w: Widths, points: usize, test: usize, trial: usize, seed: u64) -> OwnedTouching {
        OwnedTouching {
            points,
            weights: numbers(points, seed),
            test_table: numbers(w.d * points * test, seed + 1),
            trial_table: numbers(w.d * points * trial, seed + 2),
            kernel: numbers(w.k * points, seed + 3),
            test_geometry: numbers(10 * points, seed + 4),
            trial_geometry: numbers(10 * points, seed + 5),
        }
    }

    pub fn lent(&self) -> Touching<'_> {
        Touching {
            points: self.points,
            weights: &self.weights,
            test_table: &self.test_table,
            trial_table: &self.trial_table,
            kernel: &self.kernel,
            test_geometry: &self.test_geometry,
            trial_geometry: &self.trial_geometry,
        }
    }

    /// Local entry (i, j) of one bare term of kind 0, by the paper.
    pub fn single_layer(&self, i: usize, j: usize) -> f64 {
        let p = self.points;
        let mut sum = 0.0;
        for q in 0..p {
            let value = self.kernel[q] * self.test_table[q + p * i] * self.trial_table[q + p * j];
            sum += value
                * (self.weights[q] * (self.test_geometry[10 * q] * self.trial_geometry[10 * q]));
        }
        sum
    }
}

pub fn bits(list: &[f64]) -> Vec<u64> {
    list.iter().map(|x| x.to_bits()).collect()
}
