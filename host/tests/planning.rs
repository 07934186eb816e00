//! Planning: what it writes on the paper's meshes and on meshes with quads, and refusals 1 to 8 and 26, which leave every list as it was.
mod support;

use seivalto::*;
use support::*;

/// A planning whose parts a test changes.
#[derive(Clone)]
struct Case {
    mesh: OwnedMesh,
    test: Elements,
    trial: Elements,
    batch: u32,
    integrand: Integrand,
    lists: OwnedLists,
}

/// On mesh M.
fn good() -> Case {
    on(mesh_m())
}

/// On a mesh, with one DOF a vertex on both sides.
fn on(mesh: OwnedMesh) -> Case {
    let elements = VERTEX_ELEMENT.into();
    Case {
        lists: OwnedLists::blank(&mesh.kinds, elements, elements),
        mesh,
        test: elements,
        trial: elements,
        batch: 2,
        integrand: SINGLE_LAYER,
    }
}

impl Case {
    fn plan(&mut self) -> Result<Numbers, Refusal> {
        plan(
            self.mesh.lent(),
            self.test,
            self.trial,
            self.batch,
            self.integrand,
            self.lists.lent(),
        )
    }

    /// That refusal, and no list is written.
    fn refused(&mut self, refusal: Refusal, note: &str) {
        let before = self.lists.clone();
        assert_eq!(self.plan(), Err(refusal), "{note}");
        assert_eq!(self.lists, before, "{note}");
    }
}

/// Each change of the good planning gets that refusal.
fn refused(refusal: Refusal, changes: &[fn(&mut Case)]) {
    refused_on(good, refusal, changes);
}

fn refused_on(good: fn() -> Case, refusal: Refusal, changes: &[fn(&mut Case)]) {
    for (k, change) in changes.iter().enumerate() {
        let mut case = good();
        change(&mut case);
        case.refused(refusal, &format!("change {k}"));
    }
}

/// The planning is accepted.
fn accepted(case: &mut Case) -> Numbers {
    case.plan().expect("the planning is good")
}

#[test]
fn mesh_m_with_dofs_on_vertices() {
    let mut case = good();
    let expected = Numbers {
        cells: 3,
        vertices: 7,
        edges: 8,
        triangles: 3,
        quads: 0,
        touching: 5,
        distant: 4,
        pairs: KindPairs {
            triangle_triangle: 5,
            triangle_quad: 0,
            quad_triangle: 0,
            quad_quad: 0,
        },
        rows: 7,
        columns: 7,
        test: VERTEX_ELEMENT.into(),
        trial: VERTEX_ELEMENT.into(),
        integrand: SINGLE_LAYER,
    };
    assert_eq!(case.plan(), Ok(expected));
    assert_eq!(triangles(3), case.mesh.kinds);
    let lists = case.lists;
    assert_eq!(lists.test_dofs, [0, 1, 2, 1, 3, 2, 4, 5, 6]);
    assert_eq!(lists.trial_dofs, lists.test_dofs);
    assert_eq!(lists.test_colours, [0, 1, 0]);
    assert_eq!(lists.trial_colours, [0, 1, 0]);
    let vertices: Vec<(u32, u32)> = (0..7).map(|v| (0, v)).collect();
    let owners = one_on_each(&vertices, 6);
    assert_eq!(lists.test_owners, owners);
    assert_eq!(lists.trial_owners, owners);
    let distant = [[255, 2, 0], [255, 0, 2], [255, 2, 1], [255, 1, 2]];
    assert_eq!(lists.work, with_touching(distant));
}

/// M's touching records, the same whatever the elements and the batch size.
const TOUCHING: [[u32; 3]; 5] = [[11, 0, 1], [15, 1, 0], [27, 0, 0], [27, 1, 1], [27, 2, 2]];

/// The list of M with these distant records.
fn with_touching(distant: [[u32; 3]; 4]) -> Vec<u32> {
    [distant.concat(), TOUCHING.concat()].concat()
}

/// The owner records of DOFs, one on each (dimension, entity), and a tail of that length.
fn one_on_each(entities: &[(u32, u32)], tail: usize) -> Vec<u32> {
    let records = entities.iter().flat_map(|&(d, x)| [d, x, 0]);
    records.chain(vec![BLANK; tail]).collect()
}

#[test]
fn dofs_on_vertices_beside_dofs_on_vertices_and_edges() {
    let quadratic = Element { a: 1, b: 1, c: 0 };
    let (numbers, lists) = planned(&mesh_m(), VERTEX_ELEMENT, quadratic, 2, SINGLE_LAYER);
    assert_eq!((numbers.rows, numbers.columns), (7, 15));
    assert_eq!(numbers.test, VERTEX_ELEMENT.into());
    assert_eq!(numbers.trial, quadratic.into());
    assert_eq!(lists.test_dofs, [0, 1, 2, 1, 3, 2, 4, 5, 6]);
    let dofs = [0, 1, 2, 3, 4, 5, 1, 6, 2, 7, 3, 8, 9, 10, 11, 12, 13, 14];
    assert_eq!(lists.trial_dofs, dofs);
    assert_eq!(lists.test_colours, [0, 1, 0]);
    assert_eq!(lists.trial_colours, [0, 1, 0]);
    let vertices: Vec<(u32, u32)> = (0..7).map(|v| (0, v)).collect();
    assert_eq!(lists.test_owners, one_on_each(&vertices, 6));
    let first = [(0, 0), (0, 1), (0, 2), (1, 0), (1, 1), (1, 2)];
    let second = [(0, 3), (1, 3), (1, 4)];
    let third = [(0, 4), (0, 5), (0, 6), (1, 5), (1, 6), (1, 7)];
    let met = [&first[..], &second, &third].concat();
    assert_eq!(lists.trial_owners, one_on_each(&met, 9));
    let distant = [[255, 2, 0], [255, 0, 2], [255, 2, 1], [255, 1, 2]];
    assert_eq!(lists.work, with_touching(distant));
}

#[test]
fn dofs_inside_beside_dofs_on_vertices() {
    let constant = Element { a: 0, b: 0, c: 1 };
    let integrand = Integrand::two(Term::Scaled(-2.5, 3), Term::Bare(4));
    let (numbers, lists) = planned(&mesh_m(), constant, VERTEX_ELEMENT, 65_535, integrand);
    assert_eq!((numbers.rows, numbers.columns), (3, 7));
    assert_eq!(numbers.integrand, integrand);
    assert_eq!(numbers.test, constant.into());
    assert_eq!(numbers.trial, VERTEX_ELEMENT.into());
    assert_eq!(lists.test_dofs, [0, 1, 2]);
    assert_eq!(lists.test_colours, [0, 0, 0]);
    assert_eq!(lists.trial_colours, [0, 1, 0]);
    assert_eq!(lists.test_owners, one_on_each(&[(2, 0), (2, 1), (2, 2)], 0));
    let distant = [[255, 2, 0], [255, 0, 2], [255, 1, 2], [255, 2, 1]];
    assert_eq!(lists.work, with_touching(distant));
    let (_, lists) = planned(&mesh_m(), constant, VERTEX_ELEMENT, 2, integrand);
    let distant = [[255, 0, 2], [255, 1, 2], [255, 2, 0], [255, 2, 1]];
    assert_eq!(lists.work, with_touching(distant));
}

#[test]
fn batch_1_trades_the_first_two_records() {
    let (_, lists) = planned(&mesh_m(), VERTEX_ELEMENT, VERTEX_ELEMENT, 1, SINGLE_LAYER);
    let distant = [[255, 0, 2], [255, 2, 0], [255, 2, 1], [255, 1, 2]];
    assert_eq!(lists.work, with_touching(distant));
}

#[test]
fn two_cells_with_the_same_list() {
    let mesh = OwnedMesh {
        cells: 2,
        vertices: 3,
        edges: 3,
        kinds: vec![TRIANGLE; 2],
        cell_vertices: vec![0, 1, 2, 0, 1, 2],
        cell_edges: vec![0, 1, 2, 0, 1, 2],
    };
    let (numbers, lists) = planned(&mesh, VERTEX_ELEMENT, VERTEX_ELEMENT, 1, SINGLE_LAYER);
    assert_eq!((numbers.touching, numbers.distant), (4, 0));
    assert_eq!((numbers.rows, numbers.columns), (3, 3));
    assert_eq!(lists.test_dofs, [0, 1, 2, 0, 1, 2]);
    assert_eq!(lists.test_colours, [0, 1]);
    assert_eq!(
        lists.trial_owners,
        one_on_each(&[(0, 0), (0, 1), (0, 2)], 9)
    );
    assert_eq!(lists.work, [27, 0, 0, 27, 0, 1, 27, 1, 0, 27, 1, 1]);
}

#[test]
fn a_triangle_and_a_quad_that_share_an_edge() {
    let mut case = mixed();
    let expected = Numbers {
        cells: 2,
        vertices: 5,
        edges: 6,
        triangles: 1,
        quads: 1,
        touching: 4,
        distant: 0,
        pairs: KindPairs {
            triangle_triangle: 1,
            triangle_quad: 1,
            quad_triangle: 1,
            quad_quad: 1,
        },
        rows: 5,
        columns: 5,
        test: VERTEX_ELEMENT.into(),
        trial: VERTEX_ELEMENT.into(),
        integrand: SINGLE_LAYER,
    };
    assert_eq!(case.plan(), Ok(expected));
    let lists = case.lists;
    assert_eq!(lists.test_dofs, [0, 1, 2, 1, 3, 2, 4]);
    assert_eq!(lists.trial_dofs, lists.test_dofs);
    assert_eq!(lists.test_colours, [0, 1]);
    assert_eq!(lists.trial_colours, [0, 1]);
    let vertices: Vec<(u32, u32)> = (0..5).map(|v| (0, v)).collect();
    assert_eq!(lists.test_owners, one_on_each(&vertices, 6));
    assert_eq!(lists.trial_owners, one_on_each(&vertices, 6));
    assert_eq!(lists.work, [27, 0, 0, 42, 0, 1, 82, 1, 0, 148, 1, 1]);
}

/// The interior DOFs of a triangle and of a quad need not be as many.
#[test]
fn each_kind_has_its_own_element() {
    let test = Elements {
        triangle: Element { a: 1, b: 1, c: 0 },
        quad: Element { a: 1, b: 1, c: 2 },
    };
    let trial = Elements {
        triangle: Element { a: 0, b: 0, c: 1 },
        quad: Element { a: 0, b: 0, c: 2 },
    };
    let (numbers, lists) = planned(&edge_shared(), test, trial, 1, SINGLE_LAYER);
    assert_eq!((numbers.test, numbers.trial), (test, trial));
    assert_eq!((numbers.rows, numbers.columns), (13, 3));
    let dofs = [0, 1, 2, 3, 4, 5, 1, 6, 2, 7, 8, 3, 9, 10, 11, 12];
    assert_eq!(lists.test_dofs, dofs);
    assert_eq!(lists.trial_dofs, [0, 1, 2]);
    assert_eq!(lists.test_colours, [0, 1]);
    assert_eq!(lists.trial_colours, [0, 0]);
    let met = [
        (0, 0),
        (0, 1),
        (0, 2),
        (1, 0),
        (1, 1),
        (1, 2),
        (0, 3),
        (0, 4),
        (1, 3),
        (1, 4),
        (1, 5),
        (2, 1),
    ];
    let mut owners = one_on_each(&met, 0);
    owners.extend([2, 1, 1]);
    owners.extend([BLANK; 9]);
    assert_eq!(lists.test_owners, owners);
    assert_eq!(lists.trial_owners, [2, 0, 0, 2, 1, 0, 2, 1, 1]);
    assert_eq!(lists.work, [27, 0, 0, 42, 0, 1, 82, 1, 0, 148, 1, 1]);
}

/// Test kind, then trial kind, before the colours. The cells have the colours 0, 1, 0, 0 on both sides.
#[test]
fn kinds_come_before_colours() {
    let touching = [
        [27, 0, 0],
        [27, 2, 2],
        [42, 0, 1],
        [82, 1, 0],
        [148, 1, 1],
        [148, 3, 3],
    ];
    let by_two = [
        [255, 2, 0],
        [255, 0, 2],
        [255, 0, 3],
        [255, 2, 3],
        [255, 2, 1],
        [255, 3, 0],
        [255, 3, 2],
        [255, 1, 2],
        [255, 3, 1],
        [255, 1, 3],
    ];
    let mut by_one = by_two;
    by_one.swap(0, 1);
    let mesh = edge_shared_and_two_more();
    for (batch, distant) in [(1, by_one), (2, by_two), (65_535, by_two)] {
        let (numbers, lists) = planned(&mesh, VERTEX_ELEMENT, VERTEX_ELEMENT, batch, SINGLE_LAYER);
        assert_eq!((numbers.touching, numbers.distant), (6, 10));
        let pairs = KindPairs {
            triangle_triangle: 2,
            triangle_quad: 1,
            quad_triangle: 1,
            quad_quad: 2,
        };
        assert_eq!(numbers.pairs, pairs);
        assert_eq!((numbers.triangles, numbers.quads), (2, 2));
        assert_eq!(lists.test_colours, [0, 1, 0, 0]);
        let work = [distant.concat(), touching.concat()].concat();
        assert_eq!(lists.work, work, "batch {batch}");
    }
}

/// Two quads that share an edge, and one that shares nothing.
fn quads() -> OwnedMesh {
    OwnedMesh {
        cells: 3,
        vertices: 10,
        edges: 11,
        kinds: vec![QUAD; 3],
        cell_vertices: vec![0, 1, 2, 3, 1, 4, 3, 5, 6, 7, 8, 9],
        cell_edges: vec![0, 1, 2, 3, 4, 2, 5, 6, 7, 8, 9, 10],
    }
}

#[test]
fn quads_alone() {
    let (numbers, lists) = planned(&quads(), VERTEX_ELEMENT, VERTEX_ELEMENT, 2, SINGLE_LAYER);
    assert_eq!((numbers.triangles, numbers.quads), (0, 3));
    assert_eq!((numbers.touching, numbers.distant), (5, 4));
    let pairs = KindPairs {
        triangle_triangle: 0,
        triangle_quad: 0,
        quad_triangle: 0,
        quad_quad: 5,
    };
    assert_eq!(numbers.pairs, pairs);
    assert_eq!((numbers.rows, numbers.columns), (10, 10));
    assert_eq!(lists.test_dofs, quads().cell_vertices);
    assert_eq!(lists.test_colours, [0, 1, 0]);
    let records = [
        [255, 2, 0],
        [255, 0, 2],
        [255, 2, 1],
        [255, 1, 2],
        [128, 1, 0],
        [134, 0, 1],
        [148, 0, 0],
        [148, 1, 1],
        [148, 2, 2],
    ];
    assert_eq!(lists.work, records.concat());
}

/// Of quads alone the colouring dimension is read from the quad's element.
#[test]
fn colours_by_the_first_kind_present() {
    let elements = Elements {
        triangle: VERTEX_ELEMENT,
        quad: Element { a: 0, b: 0, c: 1 },
    };
    let (_, lists) = planned(&quads(), elements, VERTEX_ELEMENT, 1, SINGLE_LAYER);
    assert_eq!(lists.test_colours, [0, 0, 0]);
    assert_eq!(lists.trial_colours, [0, 1, 0]);
    let elements = Elements {
        triangle: Element { a: 0, b: 0, c: 1 },
        quad: Element { a: 0, b: 0, c: 3 },
    };
    let (_, lists) = planned(&edge_shared(), elements, VERTEX_ELEMENT, 1, SINGLE_LAYER);
    assert_eq!(lists.test_colours, [0, 0]);
    assert_eq!(lists.trial_colours, [0, 1]);
    let edges = Element { a: 0, b: 1, c: 0 };
    let corner: Vec<Vec<u32>> = vec![vec![0, 1, 2], vec![2, 3, 4, 5]];
    let mesh = OwnedMesh::of_cells(6, &corner);
    let (_, lists) = planned(&mesh, edges, VERTEX_ELEMENT, 1, SINGLE_LAYER);
    assert_eq!(lists.test_colours, [0, 0]);
    assert_eq!(lists.trial_colours, [0, 1]);
}

/// Two cells that share vertices as each pattern of the table says get its number.
#[test]
fn all_149_patterns() {
    let table = table();
    assert_eq!(table.len(), 149);
    for (number, (n, k, shared)) in table.iter().enumerate() {
        let test: Vec<u32> = (10..10 + u32::from(*n)).collect();
        let mut trial: Vec<u32> = (0..u32::from(*k)).collect();
        for (i, j) in shared {
            trial[*j] = test[*i];
        }
        let mesh = OwnedMesh::of_cells(14, &[test, trial]);
        let (numbers, lists) = planned(&mesh, VERTEX_ELEMENT, VERTEX_ELEMENT, 1, SINGLE_LAYER);
        assert_eq!((numbers.touching, numbers.distant), (4, 0));
        let pattern = lists
            .work
            .chunks(3)
            .find(|record| record[1..] == [0, 1])
            .map(|record| record[0]);
        assert_eq!(pattern, Some(number as u32), "{n} {k} {shared:?}");
    }
}

/// Every other square of a torus of 64 times 64, so that no two share an edge: as many edges as a mesh may have, and all of them used.
#[test]
fn the_most_quads_on_a_small_stack() {
    on_a_stack_of(300, || {
        let at = |i: u32, j: u32| i % 64 + 64 * (j % 64);
        let mut cells = Vec::new();
        for j in 0..64 {
            for i in (0..64).filter(|i| (i + j) % 2 == 0) {
                cells.push(vec![at(i, j), at(i + 1, j), at(i, j + 1), at(i + 1, j + 1)]);
            }
        }
        let mesh = OwnedMesh::of_cells(4096, &cells);
        assert_eq!((mesh.cells, mesh.edges), (2048, 8192));
        let edges = Element { a: 0, b: 1, c: 0 };
        let (numbers, lists) = planned(&mesh, VERTEX_ELEMENT, edges, 128, SINGLE_LAYER);
        assert_eq!((numbers.rows, numbers.columns), (4096, 8192));
        assert_eq!(numbers.touching, 5 * 2048);
        assert_eq!(numbers.pairs.quad_quad, 5 * 2048);
        assert_eq!(numbers.touching + numbers.distant, 2048 * 2048);
        assert!(lists.trial_colours.iter().all(|colour| *colour == 0));
        let mut seen = vec![false; 2048 * 2048];
        for record in lists.work.chunks(3) {
            let place = (record[1] * 2048 + record[2]) as usize;
            assert!(!std::mem::replace(&mut seen[place], true));
        }
    });
}

#[test]
fn the_largest_mesh_on_a_small_stack() {
    on_a_stack_of(300, || {
        let mesh = square(32);
        let (numbers, lists) = planned(
            &mesh,
            VERTEX_ELEMENT,
            Element { a: 0, b: 0, c: 1 },
            128,
            SINGLE_LAYER,
        );
        assert_eq!(mesh.cells, 2048);
        assert_eq!(numbers.touching + numbers.distant, 2048 * 2048);
        assert_eq!((numbers.rows, numbers.columns), (1089, 2048));
        let touching = lists
            .work
            .chunks(3)
            .filter(|record| record[0] != 255)
            .count();
        assert_eq!(touching, numbers.touching as usize);
        let mut seen = vec![false; 2048 * 2048];
        for record in lists.work.chunks(3) {
            let place = (record[1] * 2048 + record[2]) as usize;
            assert!(!std::mem::replace(&mut seen[place], true));
        }
    });
}

#[test]
fn refusal_1() {
    refused(
        Refusal::Cells,
        &[
            |c| c.mesh.cells = 0,
            |c| c.mesh.cells = 2049,
            |c| c.mesh.cells = u32::MAX,
            |c| c.mesh.cell_vertices.truncate(8),
            |c| c.mesh.cell_vertices.clear(),
            |c| c.mesh.cell_vertices.push(0),
            |c| c.mesh.kinds[2] = QUAD,
            |c| c.mesh.kinds.fill(QUAD),
        ],
    );
    refused_on(
        mixed,
        Refusal::Cells,
        &[
            |c| c.mesh.cell_vertices.truncate(6),
            |c| c.mesh.cell_vertices.push(0),
            |c| c.mesh.kinds.fill(TRIANGLE),
            |c| c.mesh.kinds.fill(QUAD),
        ],
    );
}

/// A triangle and a quad.
fn mixed() -> Case {
    on(edge_shared())
}

#[test]
fn refusal_26() {
    refused(
        Refusal::Kinds,
        &[
            |c| c.mesh.cells = 2,
            |c| c.mesh.cells = 4,
            |c| c.mesh.kinds.truncate(2),
            |c| c.mesh.kinds.push(TRIANGLE),
            |c| c.mesh.kinds.clear(),
            |c| c.mesh.kinds[0] = 0,
            |c| c.mesh.kinds[0] = 2,
            |c| c.mesh.kinds[1] = 5,
            |c| c.mesh.kinds[2] = 255,
            |c| c.mesh.kinds[2] = TRIANGLE + 128,
        ],
    );
    refused_on(
        mixed,
        Refusal::Kinds,
        &[
            |c| c.mesh.kinds[1] = 7,
            |c| c.mesh.kinds.push(QUAD),
            |c| c.mesh.kinds.truncate(1),
        ],
    );
}

/// After the range of C, before the length of the vertex list.
#[test]
fn the_place_of_refusal_26() {
    let wrong: [fn(&mut Case); 3] = [
        |c| c.mesh.kinds[0] = 5,
        |c| c.mesh.kinds.truncate(1),
        |c| c.mesh.kinds.clear(),
    ];
    for make_wrong in wrong {
        for cells in [0, 2049, u32::MAX] {
            let mut case = mixed();
            make_wrong(&mut case);
            case.mesh.cells = cells;
            case.refused(Refusal::Cells, "C is out of its range");
        }
        let later: [fn(&mut Case); 6] = [
            |c| c.mesh.cell_vertices.clear(),
            |c| c.mesh.vertices = 2,
            |c| c.mesh.cell_edges.clear(),
            |c| c.test = Element { a: 0, b: 0, c: 0 }.into(),
            |c| c.batch = 0,
            |c| c.lists.work.clear(),
        ];
        for make_worse in later {
            let mut case = mixed();
            make_wrong(&mut case);
            make_worse(&mut case);
            case.refused(Refusal::Kinds, "a later check fails too");
        }
    }
}

#[test]
fn refusal_2() {
    refused(
        Refusal::Vertices,
        &[
            |c| c.mesh.vertices = 2,
            |c| c.mesh.vertices = 4097,
            |c| c.mesh.vertices = u32::MAX,
            |c| c.mesh.vertices = 6,
            |c| c.mesh.cell_vertices[8] = u32::MAX,
            |c| c.mesh.cell_vertices[8] = 5,
        ],
    );
    refused_on(
        mixed,
        Refusal::Vertices,
        &[
            |c| c.mesh.vertices = 4,
            |c| c.mesh.cell_vertices[6] = 1,
            |c| c.mesh.cell_vertices[6] = 2,
            |c| c.mesh.cell_vertices[6] = 5,
            |c| c.mesh.cell_vertices[3] = u32::MAX,
        ],
    );
}

#[test]
fn refusal_3() {
    refused(
        Refusal::Edges,
        &[
            |c| c.mesh.edges = 2,
            |c| c.mesh.edges = 8193,
            |c| c.mesh.edges = u32::MAX,
            |c| c.mesh.edges = 7,
            |c| c.mesh.cell_edges.truncate(8),
            |c| c.mesh.cell_edges.push(0),
            |c| c.mesh.cell_edges[8] = u32::MAX,
            |c| c.mesh.cell_edges[8] = 0,
            |c| c.mesh.cell_edges[4] = 1,
        ],
    );
    refused_on(
        mixed,
        Refusal::Edges,
        &[
            |c| c.mesh.edges = 5,
            |c| c.mesh.edges = 8193,
            |c| c.mesh.cell_edges.truncate(6),
            |c| c.mesh.cell_edges.push(0),
            |c| c.mesh.cell_edges[6] = 6,
            |c| c.mesh.cell_edges[6] = 4,
            |c| c.mesh.cell_edges[4] = 5,
            |c| c.mesh.cell_edges[3] = 0,
            |c| c.mesh.cell_edges.swap(3, 4),
        ],
    );
    let mut case = mixed();
    case.mesh.edges = 8192;
    assert_eq!(accepted(&mut case).edges, 8192);
}

const NO_DOF: Element = Element { a: 0, b: 0, c: 0 };
/// Numbers whose products with 3 and 4 leave 32 bits.
const HUGE: Element = Element {
    a: u32::MAX,
    b: u32::MAX,
    c: u32::MAX,
};

#[test]
fn refusal_4() {
    refused(
        Refusal::Dim,
        &[
            |c| c.test = NO_DOF.into(),
            |c| c.trial = NO_DOF.into(),
            |c| c.test = Element { a: 0, b: 0, c: 11 }.into(),
            |c| c.trial = Element { a: 2, b: 1, c: 2 }.into(),
            |c| c.test = HUGE.into(),
            |c| c.test.triangle.a = 0xaaaa_aaab,
            |c| c.trial.triangle.b = 0x5555_5556,
            |c| c.trial.triangle.c = u32::MAX,
        ],
    );
}

/// The element of a kind that no cell has is not read.
#[test]
fn refusal_4_by_the_kinds_present() {
    for absent in [NO_DOF, HUGE, Element { a: 2, b: 1, c: 0 }] {
        let mut case = good();
        (case.test.quad, case.trial.quad) = (absent, absent);
        let numbers = accepted(&mut case);
        assert_eq!((numbers.test.quad, numbers.trial.quad), (absent, absent));
        let mut case = on(quads());
        (case.test.triangle, case.trial.triangle) = (absent, absent);
        let numbers = accepted(&mut case);
        let handed = (numbers.test.triangle, numbers.trial.triangle);
        assert_eq!(handed, (absent, absent));
    }
    refused_on(
        || on(quads()),
        Refusal::Dim,
        &[
            |c| c.test.quad = NO_DOF,
            |c| c.trial.quad = NO_DOF,
            |c| c.test.quad = HUGE,
            |c| c.trial.quad = Element { a: 2, b: 0, c: 3 },
            |c| c.test.quad = Element { a: 1, b: 1, c: 3 },
            |c| c.test.quad = Element { a: 0, b: 0, c: 11 },
            |c| c.trial.quad.a = 1 << 30,
            |c| c.trial.quad.b = 1 << 31,
        ],
    );
    refused_on(
        mixed,
        Refusal::Dim,
        &[
            |c| c.test.triangle = NO_DOF,
            |c| c.test.quad = NO_DOF,
            |c| c.trial.quad = HUGE,
            |c| c.test = Element { a: 1, b: 1, c: 3 }.into(),
            |c| c.trial = Element { a: 0, b: 3, c: 0 }.into(),
            |c| c.trial.quad.c = 7,
            |c| c.test.triangle.c = 8,
        ],
    );
}

/// Where both kinds are present, a and b are the same in both elements of a side; c need not be, nor the elements of the two sides.
#[test]
fn refusal_4_by_a_and_b() {
    refused_on(
        mixed,
        Refusal::Dim,
        &[
            |c| c.test.triangle.a = 2,
            |c| c.test.quad.a = 2,
            |c| c.trial.triangle.b = 1,
            |c| c.trial.quad.b = 1,
            |c| {
                c.test.quad = Element { a: 0, b: 1, c: 0 };
            },
            |c| {
                c.trial.triangle = Element { a: 0, b: 0, c: 3 };
            },
        ],
    );
    let mut case = mixed();
    case.test = Element { a: 0, b: 1, c: 0 }.into();
    case.trial = Elements {
        triangle: Element { a: 1, b: 1, c: 4 },
        quad: Element { a: 1, b: 1, c: 0 },
    };
    case.lists = OwnedLists::blank(&case.mesh.kinds, case.test, case.trial);
    let numbers = accepted(&mut case);
    assert_eq!((numbers.rows, numbers.columns), (6, 15));
}

#[test]
fn refusal_5() {
    refused(
        Refusal::Batch,
        &[
            |c| c.batch = 0,
            |c| c.batch = 65_536,
            |c| c.batch = u32::MAX,
        ],
    );
}

#[test]
fn refusal_6() {
    refused(
        Refusal::Integrand,
        &[
            |c| c.integrand.terms = 0,
            |c| c.integrand.terms = 3,
            |c| c.integrand.first = Term::Bare(5),
            |c| c.integrand.first = Term::Scaled(f64::NAN, 0),
            |c| c.integrand.first = Term::Scaled(f64::INFINITY, 0),
            |c| c.integrand.first = Term::Scaled(1.0, 5),
            |c| c.integrand = Integrand::two(Term::Bare(0), Term::Bare(5)),
            |c| c.integrand = Integrand::two(Term::Bare(0), Term::Scaled(f64::NEG_INFINITY, 4)),
        ],
    );
}

#[test]
fn a_second_term_is_not_read_where_the_count_is_1() {
    let integrand = Integrand {
        second: Term::Scaled(f64::INFINITY, 9),
        ..SINGLE_LAYER
    };
    let (numbers, _) = planned(&mesh_m(), VERTEX_ELEMENT, VERTEX_ELEMENT, 2, integrand);
    assert_eq!(numbers.integrand, integrand);
}

/// A planning of cells with these vertices.
fn of_cells(vertices: u32, cells: &[&[u32]]) -> Case {
    let cells: Vec<Vec<u32>> = cells.iter().map(|cell| cell.to_vec()).collect();
    on(OwnedMesh::of_cells(vertices, &cells))
}

#[test]
fn refusal_7() {
    let turned: &[&[u32]] = &[&[0, 1, 2], &[1, 2, 0]];
    let diagonal: &[&[u32]] = &[&[0, 1, 2, 3], &[0, 4, 5, 3]];
    let other_diagonal: &[&[u32]] = &[&[4, 0, 3, 5], &[0, 1, 2, 3]];
    let edge_and_diagonal: &[&[u32]] = &[&[0, 1, 2, 3], &[0, 3, 4, 5]];
    let triangle_at_a_diagonal: &[&[u32]] = &[&[0, 1, 2], &[0, 3, 4, 1]];
    let quad_at_its_diagonal: &[&[u32]] = &[&[0, 1, 2, 3], &[1, 4, 2]];
    let three_of_a_quad: &[&[u32]] = &[&[0, 1, 2], &[0, 1, 2, 3]];
    let three_of_two_quads: &[&[u32]] = &[&[0, 1, 2, 3], &[0, 1, 2, 4]];
    let quad_turned: &[&[u32]] = &[&[0, 1, 2, 3], &[1, 0, 3, 2]];
    let quad_at_other_places: &[&[u32]] = &[&[0, 1, 2, 3], &[0, 2, 1, 3]];
    for cells in [
        turned,
        diagonal,
        other_diagonal,
        edge_and_diagonal,
        triangle_at_a_diagonal,
        quad_at_its_diagonal,
        three_of_a_quad,
        three_of_two_quads,
        quad_turned,
        quad_at_other_places,
    ] {
        of_cells(6, cells).refused(Refusal::Pattern, &format!("{cells:?}"));
    }
}

#[test]
fn refusal_8() {
    refused(
        Refusal::ListLength,
        &[
            |c| c.lists.test_dofs.push(BLANK),
            |c| c.lists.trial_dofs.truncate(8),
            |c| c.lists.test_colours.truncate(2),
            |c| c.lists.trial_colours.push(BLANK),
            |c| c.lists.test_owners.truncate(26),
            |c| c.lists.trial_owners.push(BLANK),
            |c| c.lists.work.truncate(26),
            |c| c.lists.work.clear(),
        ],
    );
    refused_on(
        mixed,
        Refusal::ListLength,
        &[
            |c| c.lists.test_dofs.truncate(6),
            |c| c.lists.trial_dofs.push(BLANK),
            |c| c.lists.test_owners.truncate(18),
            |c| c.lists.trial_owners.resize(24, BLANK),
            |c| c.lists.trial_colours.truncate(1),
            |c| c.lists.work.push(BLANK),
            |c| c.test.quad.c = 1,
        ],
    );
}

#[test]
fn the_first_check_that_fails_answers() {
    refused(
        Refusal::Dim,
        &[|c| {
            c.test.triangle.a = 9;
            c.batch = 0;
            c.integrand.terms = 7;
            c.lists.work.clear();
        }],
    );
}
