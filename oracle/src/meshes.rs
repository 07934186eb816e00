//! Random meshes of triangles, of every shape, and jobs and lent numbers on them; faults in jobs.
use crate::job::{dim, Element, Elements, Integrand, Job, Mesh, Term, QUAD, TRIANGLE};
use crate::numbers::{touching_rules, Numbers, Points, Size, DISTANT};
use crate::random::Random;
use std::collections::{HashMap, HashSet};

type Cells = Vec<[u32; 3]>;

/// The shapes of meshes.
#[derive(Clone, Copy, Debug, PartialEq, Eq, PartialOrd, Ord)]
pub enum Shape {
    OneCell,
    Sphere,
    Torus,
    Sheet,
    Fan,
    Book,
    Soup,
    Islands,
    Pinched,
}

pub const SHAPES: [Shape; 9] = [
    Shape::OneCell,
    Shape::Sphere,
    Shape::Torus,
    Shape::Sheet,
    Shape::Fan,
    Shape::Book,
    Shape::Soup,
    Shape::Islands,
    Shape::Pinched,
];

/// Every element of cells of a kind whose dim is 1 to 10.
pub fn elements(kind: u8) -> Vec<Element> {
    let mut elements = vec![];
    for a in 0..=3 {
        for b in 0..=3 {
            for c in 0..=10 {
                if (1..=10).contains(&dim(kind, [a, b, c])) {
                    elements.push([a, b, c]);
                }
            }
        }
    }
    elements
}

const TETRAHEDRON: [[u32; 3]; 4] = [[0, 1, 2], [0, 3, 1], [0, 2, 3], [1, 3, 2]];
const OCTAHEDRON: [[u32; 3]; 8] = [
    [0, 1, 2],
    [0, 2, 3],
    [0, 3, 4],
    [0, 4, 1],
    [5, 2, 1],
    [5, 3, 2],
    [5, 4, 3],
    [5, 1, 4],
];

/// Each cell cut into four at the middles of its edges.
pub fn refine(cells: &[[u32; 3]]) -> Cells {
    let mut next = 1 + cells.iter().flatten().max().unwrap();
    let mut middles = HashMap::new();
    let mut middle = |a: u32, b: u32| {
        *middles.entry((a.min(b), a.max(b))).or_insert_with(|| {
            next += 1;
            next - 1
        })
    };
    cells
        .iter()
        .flat_map(|[a, b, c]| {
            let [ab, bc, ca] = [middle(*a, *b), middle(*b, *c), middle(*c, *a)];
            [[*a, ab, ca], [*b, bc, ab], [*c, ca, bc], [ab, bc, ca]]
        })
        .collect()
}

/// A closed surface of 8·4^n cells.
pub fn sphere(refinements: usize) -> Cells {
    (0..refinements).fold(OCTAHEDRON.to_vec(), |cells, _| refine(&cells))
}

/// m by n squares, each cut in two; joined to a torus where round.
fn squares(m: u32, n: u32, round: bool) -> Cells {
    let width = if round { m } else { m + 1 };
    let height = if round { n } else { n + 1 };
    let at = |i: u32, j: u32| (i % width) + width * (j % height);
    (0..n)
        .flat_map(|j| (0..m).map(move |i| (i, j)))
        .flat_map(|(i, j)| {
            let [a, b, c, d] = [at(i, j), at(i + 1, j), at(i, j + 1), at(i + 1, j + 1)];
            [[a, b, d], [a, d, c]]
        })
        .collect()
}

/// A torus of 2·m·n cells.
pub fn torus(m: u32, n: u32) -> Cells {
    squares(m, n, true)
}

fn fan(n: u32, closed: bool) -> Cells {
    (0..n)
        .map(|i| {
            let last = if closed && i + 1 == n { 1 } else { i + 2 };
            [0, i + 1, last]
        })
        .collect()
}

/// Any three vertices a cell; the same three no more than once, unless `repeat`.
fn soup(random: &mut Random, n: usize, vertices: usize, repeat: bool) -> Cells {
    let mut met = HashSet::new();
    let mut cells = vec![];
    for _ in 0..n {
        let mut cell = [0; 3];
        while cell[0] == cell[1] || cell[0] == cell[2] || cell[1] == cell[2] {
            cell = [0; 3].map(|_| random.below(vertices) as u32);
        }
        let mut three = cell;
        three.sort();
        if met.insert(three) || repeat {
            cells.push(cell);
        }
    }
    cells
}

/// Meshes side by side, with no vertex in common.
fn side_by_side(parts: &[Cells]) -> Cells {
    let mut cells: Cells = vec![];
    for part in parts {
        let next = cells.iter().flatten().max().map_or(0, |v| v + 1);
        cells.extend(part.iter().map(|cell| cell.map(|v| v + next)));
    }
    cells
}

fn small_part(random: &mut Random) -> Cells {
    match random.below(4) {
        0 => vec![[0, 1, 2]],
        1 => fan(random.from_to(2, 5) as u32, false),
        2 => TETRAHEDRON.to_vec(),
        _ => squares(random.from_to(1, 2) as u32, 1, false),
    }
}

fn islands(random: &mut Random) -> Cells {
    let n = random.from_to(2, 6);
    let parts = (0..n).map(|_| small_part(random)).collect::<Vec<_>>();
    side_by_side(&parts)
}

/// Two closed surfaces that meet in one vertex.
fn pinched() -> Cells {
    let mut cells = side_by_side(&[OCTAHEDRON.to_vec(), TETRAHEDRON.to_vec()]);
    for v in cells.iter_mut().flatten() {
        if *v == 6 {
            *v = 0;
        }
    }
    cells
}

fn cells_of(random: &mut Random, shape: Shape, large: bool) -> Cells {
    let most = if large { 12 } else { 5 };
    match shape {
        Shape::OneCell => vec![[0, 1, 2]],
        Shape::Sphere if random.once_in(3) => TETRAHEDRON.to_vec(),
        Shape::Sphere => sphere(random.below(if large { 3 } else { 2 })),
        Shape::Torus => torus(random.from_to(3, most) as u32, random.from_to(3, 4) as u32),
        Shape::Sheet => squares(
            random.from_to(1, most) as u32,
            random.from_to(1, 4) as u32,
            false,
        ),
        Shape::Fan => fan(random.from_to(3, 4 * most) as u32, random.once_in(2)),
        Shape::Book => (0..random.from_to(2, 2 * most) as u32)
            .map(|i| [0, 1, i + 2])
            .collect(),
        Shape::Soup => {
            let (n, v) = (random.from_to(2, 5 * most), random.from_to(4, 4 * most));
            let repeat = random.once_in(4);
            soup(random, n, v, repeat)
        }
        Shape::Islands => islands(random),
        Shape::Pinched => pinched(),
    }
}

/// The element of a kind that no cell has: no dim in range, so that it would be noticed if it were read.
pub const ABSENT: Element = [5, 5, 50];

/// A random map of 0, 1, 2, … to other numbers, with gaps at times.
fn renumbering(random: &mut Random, used: usize, most: usize) -> (Vec<u32>, u32) {
    let gaps = if random.once_in(2) {
        random.below(6)
    } else {
        0
    };
    let n = (used + gaps).clamp(3, most);
    let mut numbers = (0..n as u32).collect::<Vec<_>>();
    if !random.once_in(4) {
        random.shuffle(&mut numbers);
    }
    (numbers, n as u32)
}

/// The two ends of each edge of a cell, the smaller first.
fn cell_edges(cell: &[u32]) -> Vec<(u32, u32)> {
    let ends = match *cell {
        [a, b, c] => vec![(b, c), (a, c), (a, b)],
        [a, b, c, d] => vec![(a, b), (a, c), (b, d), (c, d)],
        _ => unreachable!("a cell has three or four vertices"),
    };
    ends.into_iter()
        .map(|(a, b)| (a.min(b), a.max(b)))
        .collect()
}

/// A mesh with its edges numbered as they are met, vertices kept.
pub fn plain_mesh(cells: &[impl AsRef<[u32]>]) -> Mesh {
    let cells = cells.iter().map(|cell| cell.as_ref()).collect::<Vec<_>>();
    let mut met = HashMap::new();
    let mut edge_numbers = vec![];
    for ends in cells.iter().flat_map(|cell| cell_edges(cell)) {
        let next = met.len() as u32;
        edge_numbers.push(*met.entry(ends).or_insert(next));
    }
    Mesh {
        cells: cells.len() as u32,
        vertices: 1 + *cells.iter().copied().flatten().max().unwrap(),
        edges: met.len() as u32,
        kinds: cells.iter().map(|cell| cell.len() as u8).collect(),
        cell_vertices: cells.concat(),
        cell_edges: edge_numbers,
    }
}

/// Vertices and edges numbered at random, unused ones among them.
pub fn numbered(random: &mut Random, cells: &[impl AsRef<[u32]>]) -> Mesh {
    let mut mesh = plain_mesh(cells);
    let (vertex, vertices) = renumbering(random, mesh.vertices as usize, 4096);
    let (edge, edges) = renumbering(random, mesh.edges as usize, 8192);
    for v in &mut mesh.cell_vertices {
        *v = vertex[*v as usize];
    }
    for e in &mut mesh.cell_edges {
        *e = edge[*e as usize];
    }
    Mesh {
        vertices,
        edges,
        ..mesh
    }
}

/// What a random mesh was made of.
#[derive(Clone, Copy, Debug)]
pub struct Made {
    pub shape: Shape,
    /// Cells that stand twice with the same list.
    pub repeated: usize,
    /// Cells that stand twice, the second time with its vertices in another order.
    pub turned: usize,
    pub unused_vertices: u32,
    pub unused_edges: u32,
}

pub fn unused(count: u32, used: &[u32]) -> u32 {
    count - used.iter().collect::<HashSet<_>>().len() as u32
}

pub fn mesh(random: &mut Random, shape: Shape, large: bool) -> (Mesh, Made) {
    let mut cells = cells_of(random, shape, large);
    if !random.once_in(4) {
        cells.iter_mut().for_each(|cell| random.shuffle(cell));
    }
    let repeated = if random.once_in(5) {
        random.from_to(1, 3)
    } else {
        0
    };
    for _ in 0..repeated {
        cells.push(cells[random.below(cells.len())]);
    }
    let turned = random.once_in(40) as usize;
    for _ in 0..turned {
        let mut cell = cells[random.below(cells.len())];
        cell.rotate_left(1);
        cells.push(cell);
    }
    if !random.once_in(4) {
        random.shuffle(&mut cells);
    }
    let mesh = numbered(random, &cells);
    let made = Made {
        shape,
        repeated,
        turned,
        unused_vertices: unused(mesh.vertices, &mesh.cell_vertices),
        unused_edges: unused(mesh.edges, &mesh.cell_edges),
    };
    (mesh, made)
}

pub fn term(random: &mut Random) -> Term {
    Term {
        kind: random.below(5) as u32,
        factor: random.once_in(2).then(|| random.float(-2, 1)),
    }
}

pub fn batch(random: &mut Random) -> u32 {
    match random.below(6) {
        0 => 1,
        1 => 2,
        2 => random.from_to(3, 9) as u32,
        3 => 128,
        4 => 65535,
        _ => random.from_to(1, 65535) as u32,
    }
}

fn of_triangles(triangle: Element) -> Elements {
    Elements {
        triangle,
        quad: ABSENT,
    }
}

pub fn job(random: &mut Random, shape: Shape, large: bool) -> (Job, Made) {
    let (mesh, made) = mesh(random, shape, large);
    let elements = elements(TRIANGLE);
    let test = elements[random.below(elements.len())];
    let trial = if random.once_in(3) {
        test
    } else {
        elements[random.below(elements.len())]
    };
    let integrand = Integrand {
        first: term(random),
        second: random.once_in(3).then(|| term(random)),
    };
    let batch = batch(random);
    let job = Job {
        mesh,
        test: of_triangles(test),
        trial: of_triangles(trial),
        batch,
        integrand,
    };
    (job, made)
}

/// Meshes near the largest sizes, by turns, with elements whose matrix is not too large.
pub fn large_job(random: &mut Random, turn: usize) -> (&'static str, Job) {
    let (name, mut cells) = match turn % 9 {
        0 => ("sphere of 2,048 cells", sphere(4)),
        1 => ("torus of 2,048 cells", torus(32, 32)),
        2 => ("sheet of 2,000 cells", squares(50, 20, false)),
        3 => ("closed fan of 2,048 cells", fan(2048, true)),
        4 => ("open fan of 2,048 cells", fan(2048, false)),
        5 => (
            "2,048 cells on one edge",
            (0..2048).map(|i| [0, 1, i + 2]).collect(),
        ),
        6 => ("soup of 2,048 cells", soup(random, 2048, 900, false)),
        7 => (
            "1,365 disjoint cells",
            side_by_side(&vec![vec![[0, 1, 2]]; 1365]),
        ),
        _ => ("64 spheres of 32 cells", side_by_side(&vec![sphere(1); 64])),
    };
    if !random.once_in(3) {
        cells.iter_mut().for_each(|cell| random.shuffle(cell));
    }
    random.shuffle(&mut cells);
    let elements = [[1, 0, 0], [0, 0, 1], [0, 1, 0], [1, 0, 1]];
    let job = Job {
        mesh: numbered(random, &cells),
        test: of_triangles(elements[random.below(4)]),
        trial: of_triangles(elements[random.below(4)]),
        batch: batch(random),
        integrand: Integrand {
            first: term(random),
            second: random.once_in(3).then(|| term(random)),
        },
    };
    (name, job)
}

/// How many points a rule has: up to 3 and 4, or, where `many`, up to the paper's most, on a mesh with quads for one rule in ten.
fn points(random: &mut Random, kinds_present: &[u8], many: bool) -> Points {
    let most = if many { 64 } else { 3 };
    let mut points = Points {
        touching: vec![0; DISTANT],
        test: [0; 2],
        trial: [0; 2],
    };
    for kind in kinds_present {
        let quad = (*kind == QUAD) as usize;
        points.test[quad] = random.from_to(1, most);
        points.trial[quad] = if random.once_in(3) {
            random.from_to(1, most)
        } else {
            points.test[quad]
        };
    }
    let triangles = kinds_present == [TRIANGLE];
    for rule in touching_rules(kinds_present) {
        let many = many && (triangles || random.once_in(10));
        points.touching[rule] = random.from_to(1, if many { 2048 } else { 4 });
    }
    points
}

/// Lent numbers. Test and trial point counts differ one time in three or so. One job in 20 of those with up to four cells has many points.
pub fn numbers(random: &mut Random, job: &Job) -> (Numbers, Size) {
    let many = job.mesh.cells <= 4 && random.once_in(20);
    let points = points(random, &job.mesh.kinds_present(), many);
    let size = match random.below(10) {
        0 => Size::Small,
        1 => Size::Large,
        _ => Size::Ordinary,
    };
    (Numbers::new(job, points, size, random), size)
}

/// Another number, near a bound or anywhere.
fn other(random: &mut Random, bounds: &[u32]) -> u32 {
    match random.below(bounds.len() + 1) {
        i if i < bounds.len() => bounds[i],
        _ => random.draw() as u32,
    }
}

fn spoil_list(random: &mut Random, list: &mut Vec<u32>, count: u32) {
    let at = random.below(list.len().max(1));
    match random.below(5) {
        0 => drop(list.pop()),
        1 => list.push(0),
        _ if list.is_empty() => (),
        2 => list[at] = other(random, &[count, count - 1]),
        3 => list[at] = list[random.below(list.len())],
        _ => list[at] = random.below(count.clamp(1, 1 << 16) as usize) as u32,
    }
}

fn spoil_kinds(random: &mut Random, kinds: &mut Vec<u8>) {
    let at = random.below(kinds.len().max(1));
    match random.below(4) {
        0 => drop(kinds.pop()),
        1 => kinds.push(TRIANGLE),
        _ if kinds.is_empty() => (),
        2 => kinds[at] = TRIANGLE + QUAD - kinds[at],
        _ => kinds[at] = [0, 2, 5, 255][random.below(4)],
    }
}

fn spoil_elements(random: &mut Random, elements: &mut Elements) {
    let mut element = [5, 5, 13].map(|n| random.below(n) as u32);
    if random.once_in(2) {
        element[0] = 0;
        element[1] = 0;
    }
    match random.below(4) {
        0 => elements.triangle = element,
        1 => elements.quad = element,
        2 => *elements = Elements::both(element),
        _ => elements.quad = elements.triangle,
    }
}

/// One fault, or what may be one.
pub fn spoil(random: &mut Random, job: &mut Job) {
    let mesh = &mut job.mesh;
    match random.below(11) {
        0 => mesh.cells = [0, 1, 2048, 2049, mesh.cells + 1][random.below(5)],
        1 => mesh.vertices = other(random, &[0, 2, 3, 4096, 4097, mesh.vertices - 1]),
        2 => mesh.edges = other(random, &[0, 2, 3, 8192, 8193, mesh.edges - 1]),
        3 => spoil_list(random, &mut mesh.cell_vertices, mesh.vertices),
        4 | 5 => spoil_list(random, &mut mesh.cell_edges, mesh.edges),
        6 => spoil_elements(random, &mut job.test),
        7 => spoil_elements(random, &mut job.trial),
        8 => job.batch = other(random, &[0, 1, 65535, 65536, u32::MAX]),
        9 => spoil_kinds(random, &mut mesh.kinds),
        _ => {
            job.integrand.first.kind = other(random, &[4, 5]);
            job.integrand.second = random.once_in(2).then(|| Term {
                kind: random.below(6) as u32,
                factor: Some([f64::NAN, f64::INFINITY, 1.0][random.below(3)]),
            });
        }
    }
}
