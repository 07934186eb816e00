//! The oracle on the paper's meshes, and what a comparison notices.
#![cfg(rust_at_hand)]
use oracle::answer::{difference, Answer, Assembler};
use oracle::job::{Element, Elements, Integrand, Job, Mesh};
use oracle::model::{pattern, Model};
use oracle::numbers::{Numbers, Points, Size};
use oracle::quads::{self, Kinds};
use oracle::random::Random;
use oracle::{meshes, rust};

fn job(vertices: u32, edges: u32, cells: &[u32], cell_edges: &[u32], element: Element) -> Job {
    job_on(
        Mesh::of_triangles(vertices, edges, cells.to_vec(), cell_edges.to_vec()),
        element,
    )
}

fn job_on(mesh: Mesh, element: Element) -> Job {
    Job {
        mesh,
        test: Elements::both(element),
        trial: Elements::both(element),
        batch: 2,
        integrand: Integrand::bare(0),
    }
}

fn mesh_m(element: Element) -> Job {
    let cells = [0, 1, 2, 1, 3, 2, 4, 5, 6];
    job(7, 8, &cells, &[0, 1, 2, 3, 0, 4, 5, 6, 7], element)
}

fn rust(job: &Job) -> Result<Answer, String> {
    let numbers = Numbers::new(job, Points::of(1, 1), Size::Ordinary, &mut Random::new(3));
    rust::answer(job, &numbers)
}

#[test]
fn m1_to_m3() {
    let m1 = rust(&mesh_m([1, 0, 0])).unwrap();
    assert_eq!(m1.test.colours, [0, 1, 0]);
    assert_eq!(m1.test.dofs, [0, 1, 2, 1, 3, 2, 4, 5, 6]);
    let m2 = rust(&mesh_m([1, 1, 0])).unwrap();
    let dofs = [0, 1, 2, 3, 4, 5, 1, 6, 2, 7, 3, 8, 9, 10, 11, 12, 13, 14];
    assert_eq!(m2.test.dofs, dofs);
    let m3 = rust(&mesh_m([0, 0, 1])).unwrap();
    assert_eq!(m3.test.colours, [0, 0, 0]);
}

#[test]
fn m4_to_m6() {
    let mut work = vec![
        [255, 2, 0],
        [255, 0, 2],
        [255, 2, 1],
        [255, 1, 2],
        [11, 0, 1],
        [15, 1, 0],
        [27, 0, 0],
        [27, 1, 1],
        [27, 2, 2],
    ];
    let mut job = mesh_m([1, 0, 0]);
    let m4 = rust(&job).unwrap();
    assert_eq!(m4.work, work);
    assert_eq!(m4.distant, 4);
    job.batch = 1;
    work.swap(0, 1);
    assert_eq!(rust(&job).unwrap().work, work);
}

#[test]
fn m7() {
    let edges = [0, 1, 2, 1, 2, 0];
    let turned = job(3, 3, &[0, 1, 2, 1, 2, 0], &edges, [1, 0, 0]);
    assert_eq!(rust(&turned).unwrap_err(), "no entry found for key");
    let edges = [0, 1, 2, 0, 1, 2];
    let twice = job(3, 3, &[0, 1, 2, 0, 1, 2], &edges, [1, 0, 0]);
    let work = [[27, 0, 0], [27, 0, 1], [27, 1, 0], [27, 1, 1]];
    assert_eq!(rust(&twice).unwrap().work, work);
}

/// The Rust asks for the rules of its patterns in the order of the paper's numbers, and for quads alone from 100 on; so it does a second time, for the
/// touching entries.
#[test]
fn patterns_in_order() {
    let triangle = vec![0, 1, 2];
    let quad = vec![3, 4, 5, 6];
    for (cells, first, last) in [
        (vec![triangle.clone()], 0, 27),
        (vec![triangle, quad.clone()], 0, 148),
        (vec![quad], 100, 148),
    ] {
        rust(&job_on(meshes::plain_mesh(&cells), [1, 0, 0])).unwrap();
        let numbers = bempp_quadrature::duffy::asked()
            .into_iter()
            .map(|([test, trial], con)| pattern(test, trial, &con.local_indices).unwrap())
            .collect::<Vec<_>>();
        let (dense, entries) = numbers.split_at(numbers.len() / 2);
        assert_eq!(dense, (first..=last).collect::<Vec<_>>());
        assert_eq!(dense, entries);
    }
}

/// Colours, DOFs and pairs of a prism: two triangles and three quads.
#[test]
fn prism() {
    let cells = [
        vec![0, 1, 3, 4],
        vec![0, 1, 2],
        vec![1, 2, 4, 5],
        vec![3, 4, 5],
        vec![0, 2, 3, 5],
    ];
    let job = job_on(meshes::plain_mesh(&cells), [1, 0, 0]);
    let answer = rust(&job).unwrap();
    assert_eq!(answer.test.dofs[..7], [0, 1, 2, 3, 0, 1, 4]);
    assert_eq!(answer.test.colours, [0, 1, 2, 1, 3]);
    assert_eq!(answer.work[..2], [[255, 3, 1], [255, 1, 3]]);
    assert_eq!((answer.distant, answer.kind_cells), (2, [2, 3]));
    assert_eq!(answer.kind_pairs, [2, 6, 6, 9]);
}

#[test]
fn a_change_of_any_list_is_noticed() {
    let mut random = Random::new(11);
    let (job, _) = quads::job(&mut random, quads::Shape::Sheet, Kinds::Both, false);
    assert!(job.mesh.is_mixed());
    let (numbers, _) = meshes::numbers(&mut random, &job);
    let answer = rust::answer(&job, &numbers).unwrap();
    assert_eq!(
        difference(&answer, &Model.answer(&job, &numbers).unwrap()),
        None
    );
    let changes: [fn(&mut Answer); 13] = [
        |a| a.test.dofs[0] += 1,
        |a| a.trial.count += 1,
        |a| a.test.owners[1] += 1,
        |a| a.trial.colours[0] += 1,
        |a| a.work.swap(0, 1),
        |a| a.distant += 1,
        |a| a.kind_cells[0] += 1,
        |a| a.kind_pairs[3] += 1,
        |a| a.entries.rows[0] += 1,
        |a| a.entries.columns[0] += 1,
        |a| a.entries.values[0] = f64::from_bits(a.entries.values[0].to_bits() ^ 1),
        |a| a.matrix[0] = f64::from_bits(a.matrix[0].to_bits() ^ 1),
        |a| a.matrix.truncate(1),
    ];
    for change in changes {
        let mut changed = answer.clone();
        change(&mut changed);
        assert!(difference(&answer, &changed).is_some());
    }
}

/// On meshes of one kind the corrections change nothing.
#[test]
fn corrections_on_one_kind() {
    for seed in 0..60 {
        let mut random = Random::new(seed);
        let job = if seed % 2 == 0 {
            let shape = meshes::SHAPES[random.below(meshes::SHAPES.len())];
            meshes::job(&mut random, shape, false).0
        } else {
            let shape = quads::SHAPES[random.below(quads::SHAPES.len())];
            quads::job(&mut random, shape, Kinds::Quads, false).0
        };
        let (numbers, _) = meshes::numbers(&mut random, &job);
        let published = published::run::answer(&job, &numbers);
        match (published, corrected::run::answer(&job, &numbers)) {
            (Ok(x), Ok(y)) => assert_eq!(difference(&x, &y), None),
            (x, y) => assert_eq!(x.unwrap_err(), y.unwrap_err()),
        }
    }
}
