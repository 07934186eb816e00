//! Random meshes of quads, and of quads and triangles, and jobs on them.
use crate::job::{Element, Elements, Integrand, Job, QUAD, TRIANGLE};
use crate::meshes::{batch, elements, numbered, term, unused, ABSENT};
use crate::model::cells_pattern;
use crate::random::Random;
use std::collections::HashMap;

/// Cells of three or four vertices.
type Cells = Vec<Vec<u32>>;

/// The shapes of meshes.
#[derive(Clone, Copy, Debug, PartialEq, Eq, PartialOrd, Ord)]
pub enum Shape {
    OneQuad,
    Box,
    Torus,
    Sheet,
    Checkers,
    Solids,
    Fan,
    Book,
    /// Any vertices a cell.
    Soup,
    /// Any vertices a cell, so that each shared list is in the table.
    Patchwork,
}

pub const SHAPES: [Shape; 10] = [
    Shape::OneQuad,
    Shape::Box,
    Shape::Torus,
    Shape::Sheet,
    Shape::Checkers,
    Shape::Solids,
    Shape::Fan,
    Shape::Book,
    Shape::Soup,
    Shape::Patchwork,
];

/// Which cells a mesh is made of.
#[derive(Clone, Copy, Debug, PartialEq, Eq, PartialOrd, Ord)]
pub enum Kinds {
    Quads,
    Both,
}

impl Kinds {
    /// Whether the next cell is a triangle, or the next square is cut in two.
    fn triangle(self, random: &mut Random) -> bool {
        self == Kinds::Both && random.once_in(2)
    }
}

/// Vertices that are numbered as they are met.
struct Points<P>(HashMap<P, u32>);

impl<P: Eq + std::hash::Hash> Points<P> {
    fn new() -> Self {
        Self(HashMap::new())
    }

    fn at(&mut self, point: P) -> u32 {
        let next = self.0.len() as u32;
        *self.0.entry(point).or_insert(next)
    }
}

/// A quad, or the two triangles that it is cut into along either diagonal.
fn quad_or_two(random: &mut Random, kinds: Kinds, [a, b, c, d]: [u32; 4]) -> Cells {
    if !kinds.triangle(random) {
        vec![vec![a, b, c, d]]
    } else if random.once_in(2) {
        vec![vec![a, b, d], vec![a, d, c]]
    } else {
        vec![vec![a, b, c], vec![b, d, c]]
    }
}

/// m by n squares, joined to a torus where round; of these all, or those of one colour of a chessboard.
fn squares(
    random: &mut Random,
    kinds: Kinds,
    [m, n]: [u32; 2],
    round: bool,
    checkers: bool,
) -> Cells {
    let mut points = Points::new();
    let mut cells = vec![];
    for (i, j) in (0..n).flat_map(|j| (0..m).map(move |i| (i, j))) {
        if checkers && (i + j) % 2 == 1 {
            continue;
        }
        let corners = [(i, j), (i + 1, j), (i, j + 1), (i + 1, j + 1)];
        let corners = corners.map(|(i, j)| {
            let point = if round { (i % m, j % n) } else { (i, j) };
            points.at(point)
        });
        cells.extend(quad_or_two(random, kinds, corners));
    }
    cells
}

/// The surface of a cube, n by n squares a side.
fn cube(random: &mut Random, kinds: Kinds, n: u32) -> Cells {
    let mut points = Points::new();
    let mut cells = vec![];
    for (axis, side) in (0..3).flat_map(|axis| [(axis, 0), (axis, n)]) {
        for (i, j) in (0..n).flat_map(|j| (0..n).map(move |i| (i, j))) {
            let corners = [(i, j), (i + 1, j), (i, j + 1), (i + 1, j + 1)].map(|(i, j)| {
                let mut point = [0; 3];
                point[axis] = side;
                point[(axis + 1) % 3] = i;
                point[(axis + 2) % 3] = j;
                points.at(point)
            });
            cells.extend(quad_or_two(random, kinds, corners));
        }
    }
    cells
}

fn prism() -> Cells {
    let triangles = [vec![0, 1, 2], vec![3, 4, 5]];
    let quads = [vec![0, 1, 3, 4], vec![1, 2, 4, 5], vec![0, 2, 3, 5]];
    triangles.into_iter().chain(quads).collect()
}

fn pyramid() -> Cells {
    let triangles = [vec![0, 1, 4], vec![1, 3, 4], vec![2, 3, 4], vec![0, 2, 4]];
    [vec![0, 1, 2, 3]].into_iter().chain(triangles).collect()
}

/// Cells about vertex 0.
fn fan(random: &mut Random, kinds: Kinds, n: u32, closed: bool) -> Cells {
    let mut next = n + 2;
    (0..n)
        .map(|i| {
            let last = if closed && i + 1 == n { 1 } else { i + 2 };
            let mut cell = vec![0, i + 1, last];
            if !kinds.triangle(random) {
                cell.push(next);
                next += 1;
            }
            cell
        })
        .collect()
}

/// Cells on edge (0,1).
fn book(random: &mut Random, kinds: Kinds, n: u32) -> Cells {
    (0..n)
        .map(|i| match kinds.triangle(random) {
            true => vec![0, 1, 2 * i + 2],
            false => vec![0, 1, 2 * i + 2, 2 * i + 3],
        })
        .collect()
}

fn any_cell(random: &mut Random, kinds: Kinds, vertices: usize) -> Vec<u32> {
    let corners = if kinds.triangle(random) { 3 } else { 4 };
    let mut cell = vec![];
    while cell.len() < corners {
        let v = random.below(vertices) as u32;
        if !cell.contains(&v) {
            cell.push(v);
        }
    }
    cell
}

fn soup(random: &mut Random, kinds: Kinds, n: usize, vertices: usize) -> Cells {
    (0..n).map(|_| any_cell(random, kinds, vertices)).collect()
}

/// Whether two cells share no vertex or a list of the table.
fn fit(cell: &[u32], other: &[u32]) -> bool {
    !cell.iter().any(|v| other.contains(v)) || cells_pattern(cell, other).is_some()
}

fn patchwork(random: &mut Random, kinds: Kinds, tries: usize, vertices: usize) -> Cells {
    let mut cells: Cells = vec![];
    for _ in 0..tries {
        let cell = any_cell(random, kinds, vertices);
        if cells.iter().all(|other| fit(&cell, other)) {
            cells.push(cell);
        }
    }
    cells
}

/// Meshes side by side, with no vertex in common.
fn side_by_side(parts: &[Cells]) -> Cells {
    let mut cells: Cells = vec![];
    for part in parts {
        let next = cells.iter().flatten().max().map_or(0, |v| v + 1);
        let moved = |cell: &Vec<u32>| cell.iter().map(|v| v + next).collect();
        cells.extend(part.iter().map(moved));
    }
    cells
}

fn solids(random: &mut Random, kinds: Kinds) -> Cells {
    let parts = (0..random.from_to(1, 4))
        .map(|_| match (kinds, random.below(4)) {
            (Kinds::Both, 0) => prism(),
            (Kinds::Both, 1) => pyramid(),
            (_, 2) => squares(random, kinds, [2, 1], false, false),
            _ => cube(random, kinds, 1),
        })
        .collect::<Vec<_>>();
    side_by_side(&parts)
}

fn cells_of(random: &mut Random, shape: Shape, kinds: Kinds, large: bool) -> Cells {
    let most = if large { 10 } else { 4 };
    let mut sizes = |low| {
        [
            random.from_to(low, most) as u32,
            random.from_to(low, 4) as u32,
        ]
    };
    match shape {
        Shape::OneQuad => quad_or_two(random, kinds, [0, 1, 2, 3]),
        Shape::Box => {
            let n = random.from_to(1, most / 2) as u32;
            cube(random, kinds, n)
        }
        Shape::Torus => {
            let sizes = sizes(3);
            squares(random, kinds, sizes, true, false)
        }
        Shape::Sheet => {
            let sizes = sizes(1);
            squares(random, kinds, sizes, false, false)
        }
        Shape::Checkers => {
            let sizes = sizes(2).map(|n| 2 * n);
            let round = random.once_in(2);
            squares(random, kinds, sizes, round, true)
        }
        Shape::Solids => solids(random, kinds),
        Shape::Fan => {
            let (n, closed) = (random.from_to(3, 4 * most) as u32, random.once_in(2));
            fan(random, kinds, n, closed)
        }
        Shape::Book => {
            let n = random.from_to(2, 2 * most) as u32;
            book(random, kinds, n)
        }
        Shape::Soup => {
            let (n, vertices) = (random.from_to(2, 6), random.from_to(8, 40));
            soup(random, kinds, n, vertices)
        }
        Shape::Patchwork => {
            let (tries, vertices) = (random.from_to(10, 40 * most), random.from_to(7, 5 * most));
            patchwork(random, kinds, tries, vertices)
        }
    }
}

/// The eight orders of a quad's vertices that keep its edges.
const TURNS: [[usize; 4]; 8] = [
    [0, 1, 2, 3],
    [1, 3, 0, 2],
    [3, 2, 1, 0],
    [2, 0, 3, 1],
    [1, 0, 3, 2],
    [0, 2, 1, 3],
    [2, 3, 0, 1],
    [3, 1, 2, 0],
];

/// Another order of a cell's vertices, its edges kept.
fn turn(random: &mut Random, cell: &mut [u32]) {
    match *cell {
        [a, b, c, d] => {
            let old = [a, b, c, d];
            let turn = TURNS[random.below(8)];
            cell.copy_from_slice(&turn.map(|i| old[i]));
        }
        _ => random.shuffle(cell),
    }
}

/// A cell that meets a quad of the mesh, or a triangle, in a list outside the table: at a diagonal, in three vertices, in another order.
fn misfit(random: &mut Random, cells: &Cells, kinds: Kinds) -> Vec<u32> {
    let mut next = cells.iter().flatten().max().unwrap() + 1;
    let mut new = || {
        next += 1;
        next - 1
    };
    let mut misfit = match *cells[random.below(cells.len())] {
        [a, b, c, d] => match (random.below(4), kinds) {
            (0, Kinds::Both) => vec![a, d, new()],
            (0, _) => vec![a, new(), new(), d],
            (1, Kinds::Both) => vec![a, b, c],
            (1, _) => vec![a, b, c, new()],
            (2, _) => vec![a, new(), d, new()],
            _ => vec![a, c, b, d],
        },
        [a, b, c] => match random.below(2) {
            0 => vec![b, c, a],
            _ => vec![a, b, c, new()],
        },
        _ => unreachable!("a cell has three or four vertices"),
    };
    if random.once_in(2) {
        turn(random, &mut misfit);
    }
    misfit
}

/// What a random mesh was made of.
#[derive(Clone, Copy, Debug)]
pub struct Made {
    pub shape: Shape,
    /// Cells that stand twice with the same list.
    pub repeated: usize,
    /// Cells that meet another one in a list outside the table.
    pub misfits: usize,
    /// Quads whose vertices stand in any order.
    pub crossed: usize,
    pub unused: u32,
}

/// Every two elements with the same DOFs a vertex and an edge, for triangles and for quads.
pub fn both_elements() -> Vec<Elements> {
    let pair = |triangle: Element| {
        let same = move |quad: &Element| triangle[..2] == quad[..2];
        let quads = elements(QUAD).into_iter().filter(same);
        quads.map(move |quad| Elements { triangle, quad })
    };
    elements(TRIANGLE).into_iter().flat_map(pair).collect()
}

/// The elements of a side. That of a kind which no cell has is not read.
fn side(random: &mut Random, present: &[u8]) -> Elements {
    let pick = |random: &mut Random, kind| {
        let elements = elements(kind);
        elements[random.below(elements.len())]
    };
    match *present {
        [TRIANGLE] => Elements {
            triangle: pick(random, TRIANGLE),
            quad: ABSENT,
        },
        [QUAD] => Elements {
            triangle: ABSENT,
            quad: pick(random, QUAD),
        },
        _ => {
            let both = both_elements();
            both[random.below(both.len())]
        }
    }
}

/// A job with up to `most` DOFs a side.
fn job_on(random: &mut Random, cells: &Cells, most: u32) -> Job {
    let mesh = numbered(random, cells);
    let present = mesh.kinds_present();
    let mut next = || loop {
        let elements = side(random, &present);
        let counts = present.iter().map(|kind| {
            let [a, b, c] = elements.of(*kind);
            a * mesh.vertices + b * mesh.edges + c * mesh.cells
        });
        if counts.max() <= Some(most) {
            return elements;
        }
    };
    let (test, trial) = (next(), next());
    let trial = if random.once_in(3) { test } else { trial };
    Job {
        mesh,
        test,
        trial,
        batch: batch(random),
        integrand: Integrand {
            first: term(random),
            second: random.once_in(3).then(|| term(random)),
        },
    }
}

pub fn job(random: &mut Random, shape: Shape, kinds: Kinds, large: bool) -> (Job, Made) {
    let mut cells = cells_of(random, shape, kinds, large);
    if !random.once_in(4) && shape != Shape::Patchwork {
        cells.iter_mut().for_each(|cell| turn(random, cell));
    }
    let mut count = |once_in, most| match random.once_in(once_in) {
        true => random.from_to(1, most),
        false => 0,
    };
    let (repeated, misfits, crossed) = (count(5, 3), count(12, 1), count(30, 1));
    for _ in 0..repeated {
        cells.push(cells[random.below(cells.len())].clone());
    }
    for _ in 0..misfits {
        cells.push(misfit(random, &cells, kinds));
    }
    for _ in 0..crossed {
        let at = random.below(cells.len());
        random.shuffle(&mut cells[at]);
    }
    if !random.once_in(4) {
        random.shuffle(&mut cells);
    }
    let job = job_on(random, &cells, u32::MAX);
    let mesh = &job.mesh;
    let made = Made {
        shape,
        repeated,
        misfits,
        crossed,
        unused: unused(mesh.vertices, &mesh.cell_vertices) + unused(mesh.edges, &mesh.cell_edges),
    };
    (job, made)
}

/// Meshes near the largest sizes, by turns, with elements whose matrix is not too large.
pub fn large_job(random: &mut Random, turn_number: usize) -> (&'static str, Job) {
    use Kinds::{Both, Quads};
    let (name, mut cells) = match turn_number % 8 {
        0 => (
            "chessboard on a torus, 2,048 quads, 4,096 vertices, 8,192 edges",
            squares(random, Quads, [64, 64], true, true),
        ),
        1 => ("box of 1,944 quads", cube(random, Quads, 18)),
        2 => (
            "torus of quads and triangles",
            squares(random, Both, [36, 36], true, false),
        ),
        3 => (
            "sheet of quads and triangles",
            squares(random, Both, [50, 26], false, false),
        ),
        4 => (
            "closed fan of quads and triangles",
            fan(random, Both, 1900, true),
        ),
        5 => ("quads on one edge", book(random, Quads, 2047)),
        6 => ("quads and triangles on one edge", book(random, Both, 2047)),
        _ => (
            "patchwork of quads and triangles",
            patchwork(random, Both, 5000, 1200),
        ),
    };
    cells.truncate(2048);
    if !random.once_in(3) {
        cells.iter_mut().for_each(|cell| turn(random, cell));
    }
    random.shuffle(&mut cells);
    (name, job_on(random, &cells, 4400))
}
