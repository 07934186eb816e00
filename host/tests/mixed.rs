//! Many meshes of triangles and quads, as good as random: planning and whole runs, held to what a plain program gives that is written from the paper.
mod support;

use std::collections::HashMap;

use seivalto::*;
use support::*;

/// Numbers that are as good as random.
struct Random(u64);

impl Random {
    fn below(&mut self, n: usize) -> usize {
        self.0 = self
            .0
            .wrapping_mul(6_364_136_223_846_793_005)
            .wrapping_add(1_442_695_040_888_963_407);
        (self.0 >> 33) as usize % n
    }

    fn shuffle<T>(&mut self, list: &mut [T]) {
        for i in 1..list.len() {
            list.swap(i, self.below(i + 1));
        }
    }
}

/// The places of a quad's corners, turned and turned over in each way that keeps its edges.
const TURNS: [[usize; 4]; 8] = [
    [0, 1, 2, 3],
    [1, 0, 3, 2],
    [2, 3, 0, 1],
    [3, 2, 1, 0],
    [0, 2, 1, 3],
    [2, 0, 3, 1],
    [1, 3, 0, 2],
    [3, 1, 2, 0],
];

/// What the squares of a panel become.
#[derive(Clone, Copy, Debug, PartialEq)]
enum Squares {
    Mixed,
    Quads,
    Triangles,
}

/// A panel of squares, each a quad or cut into two triangles, some of them left out. Cells, vertices and the places in a cell are numbered at random.
fn panel(random: &mut Random, squares: Squares) -> OwnedMesh {
    let (width, height) = (1 + random.below(4), 1 + random.below(3));
    let mut numbers: Vec<u32> = (0..((width + 1) * (height + 1)) as u32).collect();
    random.shuffle(&mut numbers);
    let mut cells = Vec::new();
    for y in 0..height {
        for x in 0..width {
            let at = |x: usize, y: usize| numbers[x + (width + 1) * y];
            let corners = [at(x, y), at(x + 1, y), at(x, y + 1), at(x + 1, y + 1)];
            if !cells.is_empty() && random.below(8) == 0 {
                continue;
            }
            if squares == Squares::Quads || (squares == Squares::Mixed && random.below(2) == 0) {
                let turn = TURNS[random.below(8)];
                cells.push(turn.map(|place| corners[place]).to_vec());
                continue;
            }
            for places in [[0, 1, 2], [3, 2, 1]] {
                let mut cell = places.map(|place| corners[place]);
                random.shuffle(&mut cell);
                cells.push(cell.to_vec());
            }
        }
    }
    random.shuffle(&mut cells);
    OwnedMesh::of_cells(numbers.len().max(3) as u32, &cells)
}

/// Elements of one side; where a and b are 0 each kind has a DOF inside.
fn elements(random: &mut Random) -> Elements {
    let [a, b] = [[1, 0], [0, 1], [1, 1], [0, 0], [2, 0]][random.below(5)];
    let least = u32::from(a + b == 0);
    let mut with = |most: u32| Element {
        a,
        b,
        c: least + random.below((most + 1 - least) as usize) as u32,
    };
    Elements {
        triangle: with(2),
        quad: with(2),
    }
}

/// What planning has to write and hand back.
#[derive(Debug, PartialEq)]
struct Expected {
    test_dofs: Vec<u32>,
    trial_dofs: Vec<u32>,
    test_colours: Vec<u32>,
    trial_colours: Vec<u32>,
    test_owners: Vec<u32>,
    trial_owners: Vec<u32>,
    work: Vec<[u32; 3]>,
    rows: u32,
    columns: u32,
    pairs: [u32; 4],
}

/// DOF numbers, cell after cell, and owners, DOF after DOF.
fn numbered(mesh: &OwnedMesh, elements: Elements) -> (Vec<u32>, Vec<u32>) {
    let vertices = mesh.each(&mesh.cell_vertices);
    let edges = mesh.each(&mesh.cell_edges);
    let (mut dofs, mut owners) = (Vec::new(), Vec::new());
    let mut met: HashMap<(u32, u32, u32), u32> = HashMap::new();
    for (i, kind) in mesh.kinds.iter().enumerate() {
        let element = match *kind {
            TRIANGLE => elements.triangle,
            _ => elements.quad,
        };
        let on_vertices = vertices[i].iter().map(|v| (0, *v, element.a));
        let on_edges = edges[i].iter().map(|e| (1, *e, element.b));
        let inside = (2, i as u32, element.c);
        for (dimension, entity, count) in on_vertices.chain(on_edges).chain([inside]) {
            for place in 0..count {
                let next = met.len() as u32;
                let dof = *met.entry((dimension, entity, place)).or_insert_with(|| {
                    owners.extend([dimension, entity, place]);
                    next
                });
                dofs.push(dof);
            }
        }
    }
    (dofs, owners)
}

fn coloured(mesh: &OwnedMesh, elements: Elements) -> Vec<u32> {
    let leading = match mesh.kinds.contains(&TRIANGLE) {
        true => elements.triangle,
        false => elements.quad,
    };
    let lists = match (leading.a, leading.b) {
        (0, 0) => (0..mesh.cells).map(|i| vec![i]).collect(),
        (0, _) => owned(mesh.each(&mesh.cell_edges)),
        _ => owned(mesh.each(&mesh.cell_vertices)),
    };
    let mut colours: Vec<u32> = Vec::new();
    for i in 0..lists.len() {
        let free = (0..).find(|colour| {
            (0..i).all(|j| colours[j] != *colour || lists[i].iter().all(|x| !lists[j].contains(x)))
        });
        colours.push(free.expect("a colour"));
    }
    colours
}

fn owned(cells: Vec<&[u32]>) -> Vec<Vec<u32>> {
    cells.into_iter().map(<[u32]>::to_vec).collect()
}

/// The shared vertices of two cells, as (test place, trial place), trial places rising.
fn shared(test: &[u32], trial: &[u32]) -> Vec<(usize, usize)> {
    let place = |vertex: &u32| test.iter().position(|v| v == vertex);
    let matches = trial.iter().enumerate();
    matches
        .filter_map(|(j, vertex)| place(vertex).map(|i| (i, j)))
        .collect()
}

fn expected(mesh: &OwnedMesh, test: Elements, trial: Elements, batch: usize) -> Expected {
    let ((test_dofs, test_owners), (trial_dofs, trial_owners)) =
        (numbered(mesh, test), numbered(mesh, trial));
    let (test_colours, trial_colours) = (coloured(mesh, test), coloured(mesh, trial));
    let vertices = mesh.each(&mesh.cell_vertices);
    let table = table();
    let cells = |kind: u8, colours: &[u32], colour: u32| -> Vec<usize> {
        (0..mesh.kinds.len())
            .filter(|i| mesh.kinds[*i] == kind && colours[*i] == colour)
            .collect()
    };
    let (mut work, mut touching, mut pairs) = (Vec::new(), Vec::new(), [0; 4]);
    for (block, (n, k)) in [(3, 3), (3, 4), (4, 3), (4, 4)].into_iter().enumerate() {
        for c in 0..mesh.cells {
            for d in 0..mesh.cells {
                let (tests, trials) = (cells(n, &test_colours, c), cells(k, &trial_colours, d));
                for tests in tests.chunks(batch) {
                    for trials in trials.chunks(batch) {
                        for j in trials {
                            for i in tests {
                                let list = shared(vertices[*i], vertices[*j]);
                                if list.is_empty() {
                                    work.push([255, *i as u32, *j as u32]);
                                    continue;
                                }
                                let least = list.iter().map(|(p, _)| vertices[*i][*p]).min();
                                let number = table.iter().position(|x| *x == (n, k, list.clone()));
                                touching.push((number.expect("a pattern"), least, *i, *j));
                                pairs[block] += 1;
                            }
                        }
                    }
                }
            }
        }
    }
    touching.sort();
    let records = touching.iter();
    work.extend(records.map(|(number, _, i, j)| [*number as u32, *i as u32, *j as u32]));
    Expected {
        rows: test_owners.len() as u32 / 3,
        columns: trial_owners.len() as u32 / 3,
        test_dofs,
        trial_dofs,
        test_colours,
        trial_colours,
        test_owners,
        trial_owners,
        work,
        pairs,
    }
}

/// Planning's answer in the same form, without the tails of owner lists, which have to be as they were.
fn answered(numbers: Numbers, lists: &OwnedLists) -> Expected {
    let front = |owners: &[u32], count: u32| {
        let (front, tail) = owners.split_at(3 * count as usize);
        assert!(tail.iter().all(|x| *x == BLANK));
        front.to_vec()
    };
    let p = numbers.pairs;
    let records = lists.work.chunks(3);
    Expected {
        test_dofs: lists.test_dofs.clone(),
        trial_dofs: lists.trial_dofs.clone(),
        test_colours: lists.test_colours.clone(),
        trial_colours: lists.trial_colours.clone(),
        test_owners: front(&lists.test_owners, numbers.rows),
        trial_owners: front(&lists.trial_owners, numbers.columns),
        work: records.map(|r| [r[0], r[1], r[2]]).collect(),
        rows: numbers.rows,
        columns: numbers.columns,
        pairs: [
            p.triangle_triangle,
            p.triangle_quad,
            p.quad_triangle,
            p.quad_quad,
        ],
    }
}

/// A planning, held to what is expected.
fn held(random: &mut Random, squares: Squares) -> (Numbers, OwnedLists) {
    let mesh = panel(random, squares);
    let (test, trial) = (elements(random), elements(random));
    let batch = 1 + random.below(4);
    let (numbers, lists) = planned(&mesh, test, trial, batch as u32, SINGLE_LAYER);
    let note = format!("{mesh:?}, {test:?}, {trial:?}, batch {batch}");
    let expected = expected(&mesh, test, trial, batch);
    assert_eq!(answered(numbers, &lists), expected, "{note}");
    let quads = mesh.kinds.iter().filter(|kind| **kind == QUAD).count() as u32;
    assert_eq!(
        (numbers.triangles, numbers.quads),
        (mesh.cells - quads, quads)
    );
    let touching = expected.pairs.iter().sum::<u32>();
    assert_eq!(numbers.touching, touching, "{note}");
    assert_eq!(numbers.distant, mesh.cells * mesh.cells - touching);
    (numbers, lists)
}

#[test]
fn plannings_of_panels() {
    let mut random = Random(3);
    let mut seen = [false; 149];
    for k in 0..600 {
        let squares = [Squares::Mixed, Squares::Mixed, Squares::Quads][k % 3];
        let (_, lists) = held(&mut random, squares);
        for record in lists.work.chunks(3).filter(|record| record[0] != 255) {
            seen[record[0] as usize] = true;
        }
    }
    for _ in 0..50 {
        held(&mut random, Squares::Triangles);
    }
    let missing: Vec<usize> = (0..149).filter(|number| !seen[*number]).collect();
    assert!(missing.is_empty(), "no pair had the patterns {missing:?}");
}

/// Whole runs on panels: matrix and entries, each entry at its place, record after record.
#[test]
fn runs_on_panels() {
    let mut random = Random(4);
    for k in 0..30 {
        let (numbers, lists) = held(&mut random, Squares::Mixed);
        let seed = 1000 * k;
        let mut matrix = support::numbers((numbers.rows * numbers.columns) as usize, seed);
        let mut expected = matrix.clone();
        let count = numbers.entry_count();
        let (mut rows, mut columns, mut values) =
            (vec![BLANK; count], vec![BLANK; count], vec![0.0; count]);
        let mut entries = Vec::new();
        let (mut dense, mut sparse) = (numbers.begin(), numbers.begin_entries());
        while let (_, Ok(record)) = dense.look(lists.plan()) {
            let seed = seed + u64::from(dense.position);
            let test = lists.test_dofs_of(numbers.test, record.test_cell);
            let trial = lists.trial_dofs_of(numbers.trial, record.trial_cell);
            let distant = OwnedDistant::new(2, 3, test.len(), trial.len(), seed);
            let touching = OwnedTouching::new(3, test.len(), trial.len(), seed);
            let answer = match record.pattern {
                255 => dense.add_distant(lists.plan(), distant.lent(), &mut matrix),
                _ => dense.add_touching(lists.plan(), touching.lent(), &mut matrix),
            };
            assert_eq!(answer.1, Ok(()));
            dense = answer.0;
            if record.pattern != 255 {
                let lent = EntryLists {
                    rows: &mut rows,
                    columns: &mut columns,
                    values: &mut values,
                };
                let answer = sparse.add_entries(lists.plan(), touching.lent(), lent);
                assert_eq!(answer.1, Ok(()));
                sparse = answer.0;
            }
            for (j, column) in trial.iter().enumerate() {
                for (i, row) in test.iter().enumerate() {
                    let value = match record.pattern {
                        255 => distant.single_layer(i, j),
                        _ => touching.single_layer(i, j),
                    };
                    expected[(row + numbers.rows * column) as usize] += value;
                    if record.pattern != 255 {
                        entries.push((*row, *column, value.to_bits()));
                    }
                }
            }
        }
        let end = numbers.cells * numbers.cells;
        assert_eq!((dense.position, sparse.position), (end, end));
        assert_eq!(bits(&matrix), bits(&expected));
        let written = rows.iter().zip(&columns).zip(&values);
        let written: Vec<_> = written.map(|((r, c), x)| (*r, *c, x.to_bits())).collect();
        assert_eq!(written, entries);
    }
}
