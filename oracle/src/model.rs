//! The paper as plain Rust, with no thought for speed: lists are sorted by the keys that the paper names.
use crate::answer::{Answer, Assembler, Entries, Refused, Space};
use crate::job::{Elements, Job, Mesh, Term};
use crate::numbers::{rule_of, Numbers, DISTANT};
use std::collections::{BTreeMap, HashMap};

pub struct Model;

/// The local edges of a triangle and of a quad.
const TRIANGLE_EDGES: &[[usize; 2]] = &[[1, 2], [0, 2], [0, 1]];
const QUAD_EDGES: &[[usize; 2]] = &[[0, 1], [0, 2], [1, 3], [2, 3]];

/// Those of a cell with so many vertices.
fn local_edges(corners: usize) -> &'static [[usize; 2]] {
    match corners {
        3 => TRIANGLE_EDGES,
        _ => QUAD_EDGES,
    }
}

fn in_range(n: u32, low: u32, high: u32) -> bool {
    (low..=high).contains(&n)
}

/// The vertices and edges of each cell, its own counts cut from the lists.
struct Cells<'a> {
    vertices: Vec<&'a [u32]>,
    edges: Vec<&'a [u32]>,
}

impl<'a> Cells<'a> {
    fn new(mesh: &'a Mesh) -> Self {
        Self {
            vertices: mesh.cut(&mesh.cell_vertices),
            edges: mesh.cut(&mesh.cell_edges),
        }
    }

    fn len(&self) -> usize {
        self.vertices.len()
    }

    fn kind(&self, cell: usize) -> u8 {
        self.vertices[cell].len() as u8
    }

    fn entities(&self, cell: usize, dim: usize) -> Vec<u32> {
        match dim {
            0 => self.vertices[cell].to_vec(),
            1 => self.edges[cell].to_vec(),
            _ => vec![cell as u32],
        }
    }
}

fn edge_rule(cells: &Cells) -> bool {
    let (mut edge_of, mut ends_of) = (HashMap::new(), HashMap::new());
    cells
        .vertices
        .iter()
        .zip(&cells.edges)
        .all(|(vertices, edges)| {
            let joined = local_edges(vertices.len()).iter().zip(*edges);
            joined.into_iter().all(|([i, j], edge)| {
                let mut ends = [vertices[*i], vertices[*j]];
                ends.sort();
                *edge_of.entry(ends).or_insert(*edge) == *edge
                    && *ends_of.entry(*edge).or_insert(ends) == ends
            })
        })
}

fn twice(vertices: &[u32]) -> bool {
    (1..vertices.len()).any(|i| vertices[..i].contains(&vertices[i]))
}

/// Check 4, on the kinds present.
fn elements_right(kinds: &[u8], elements: Elements) -> bool {
    let (triangles, quads) = (kinds.contains(&3), kinds.contains(&4));
    let ([a, b, c], [d, e, f]) = (elements.triangle, elements.quad);
    let dim = |n: u64, [a, b, c]: [u32; 3]| n * a as u64 + n * b as u64 + c as u64;
    let right = |dim| (1..=10).contains(&dim);
    (!triangles || right(dim(3, [a, b, c])))
        && (!quads || right(dim(4, [d, e, f])))
        && (!(triangles && quads) || (a, b) == (d, e))
}

fn checks_to_6(job: &Job) -> Result<(), Refused> {
    let mesh = &job.mesh;
    let refuse = |number, fails| match fails {
        true => Err(Refused(number)),
        false => Ok(()),
    };
    let kind_right = |kind: &u8| *kind == 3 || *kind == 4;
    refuse(1, !in_range(mesh.cells, 1, 2048))?;
    refuse(26, mesh.kinds.len() != mesh.cells as usize)?;
    refuse(26, !mesh.kinds.iter().all(kind_right))?;
    let places = mesh.kinds.iter().map(|kind| *kind as usize).sum::<usize>();
    refuse(1, mesh.cell_vertices.len() != places)?;
    refuse(2, !in_range(mesh.vertices, 3, 4096))?;
    refuse(2, mesh.cell_vertices.iter().any(|v| *v >= mesh.vertices))?;
    refuse(2, mesh.cut(&mesh.cell_vertices).into_iter().any(twice))?;
    refuse(3, !in_range(mesh.edges, 3, 8192))?;
    refuse(3, mesh.cell_edges.len() != places)?;
    refuse(3, mesh.cell_edges.iter().any(|e| *e >= mesh.edges))?;
    refuse(3, !edge_rule(&Cells::new(mesh)))?;
    refuse(4, !elements_right(&mesh.kinds, job.test))?;
    refuse(4, !elements_right(&mesh.kinds, job.trial))?;
    refuse(5, !in_range(job.batch, 1, 65535))?;
    let bad = |t: Term| t.kind > 4 || t.factor.is_some_and(|f| !f.is_finite());
    refuse(6, bad(job.integrand.first))?;
    refuse(6, job.integrand.second.is_some_and(bad))
}

fn space(cells: &Cells, elements: Elements) -> Space {
    let mut space = Space::default();
    let mut first = HashMap::new();
    for cell in 0..cells.len() {
        let element = elements.of(cells.kind(cell));
        for (dim, each) in element.into_iter().enumerate() {
            for entity in cells.entities(cell, dim) {
                let start = *first.entry((dim, entity)).or_insert_with(|| {
                    for place in 0..each {
                        space.owners.extend([dim as u32, entity, place]);
                    }
                    space.count += each;
                    space.count - each
                });
                space.dofs.extend(start..start + each);
            }
        }
    }
    let first_kind = (0..cells.len()).map(|cell| cells.kind(cell)).min().unwrap();
    let dim = elements.of(first_kind).iter().position(|n| *n > 0).unwrap();
    for cell in 0..cells.len() {
        let mine = cells.entities(cell, dim);
        let taken = (0..cell)
            .filter(|other| cells.entities(*other, dim).iter().any(|e| mine.contains(e)))
            .map(|other| space.colours[other])
            .collect::<Vec<_>>();
        space
            .colours
            .push((0..).find(|c| !taken.contains(c)).unwrap());
    }
    space
}

/// Shared vertices as (test place, trial place), trial place rising.
fn shared(test: &[u32], trial: &[u32]) -> Vec<(usize, usize)> {
    (0..trial.len())
        .filter_map(|j| test.iter().position(|v| *v == trial[j]).map(|i| (i, j)))
        .collect()
}

/// The number of a shared list in the table of 149, for a test cell and a trial cell with so many vertices, or none.
pub fn pattern(test: usize, trial: usize, pairs: &[(usize, usize)]) -> Option<u32> {
    let block = match (test, trial) {
        (3, 3) => 0,
        (3, 4) => 28,
        (4, 3) => 64,
        _ => 100,
    };
    let (test_edges, trial_edges) = (local_edges(test), local_edges(trial));
    let edge = |edges: &[[usize; 2]], i, j| edges.iter().position(|e| *e == [i, j] || *e == [j, i]);
    let vertices = test * trial;
    let number = match *pairs {
        [(i, j)] => trial * i + j,
        [(i, j), (k, l)] => {
            let (e, g) = (edge(test_edges, i, k)?, edge(trial_edges, j, l)?);
            vertices + 2 * (trial * e + g) + (test_edges[e][1] == i) as usize
        }
        _ if test == trial && pairs.iter().copied().eq((0..test).map(|i| (i, i))) => 3 * vertices,
        _ => return None,
    };
    Some((block + number) as u32)
}

/// The pattern of two cells that share a vertex, or none.
pub fn cells_pattern(test: &[u32], trial: &[u32]) -> Option<u32> {
    pattern(test.len(), trial.len(), &shared(test, trial))
}

/// The number of each cell's batch within the cells of its kind and colour.
fn batches(cells: &Cells, colours: &[u32], batch: u32) -> Vec<u32> {
    let mut met = BTreeMap::new();
    (0..cells.len())
        .map(|cell| {
            let before = met.entry((cells.kind(cell), colours[cell])).or_insert(0);
            *before += 1;
            (*before - 1) / batch
        })
        .collect()
}

/// The work list, N, and the touching pairs per two kinds.
type Work = (Vec<[u32; 3]>, u32, [u32; 4]);

fn work(job: &Job, cells: &Cells, test: &Space, trial: &Space) -> Result<Work, Refused> {
    let (tb, rb) = (
        batches(cells, &test.colours, job.batch),
        batches(cells, &trial.colours, job.batch),
    );
    let (mut distant, mut touching, mut kind_pairs) = (vec![], vec![], [0; 4]);
    for (t, r) in (0..cells.len()).flat_map(|t| (0..cells.len()).map(move |r| (t, r))) {
        let kinds = [cells.kind(t), cells.kind(r)];
        let pairs = shared(cells.vertices[t], cells.vertices[r]);
        if pairs.is_empty() {
            distant.push([
                kinds[0] as u32,
                kinds[1] as u32,
                test.colours[t],
                trial.colours[r],
                tb[t],
                rb[r],
                r as u32,
                t as u32,
            ]);
        } else {
            let vertices = cells.vertices[r];
            let smallest = pairs.iter().map(|(_, j)| vertices[*j]).min().unwrap();
            let number = pattern(kinds[0] as usize, kinds[1] as usize, &pairs).ok_or(Refused(7))?;
            touching.push([number, smallest, t as u32, r as u32]);
            kind_pairs[2 * (kinds[0] == 4) as usize + (kinds[1] == 4) as usize] += 1;
        }
    }
    distant.sort();
    touching.sort();
    let n = distant.len() as u32;
    let distant = distant.into_iter().map(|key| [255, key[7], key[6]]);
    let touching = touching.into_iter().map(|key| [key[0], key[2], key[3]]);
    Ok((distant.chain(touching).collect(), n, kind_pairs))
}

fn kind_value(kind: u32, k: &[f64], t: &[f64], r: &[f64], test: &[f64], trial: &[f64]) -> f64 {
    let (tn, rn, tj, rj) = (&test[1..4], &trial[1..4], &test[4..], &trial[4..]);
    match kind {
        0 => k[0] * t[0] * r[0],
        1 => (k[1] * rn[0] + k[2] * rn[1] + k[3] * rn[2]) * t[0] * r[0],
        2 => -(k[1] * tn[0] + k[2] * tn[1] + k[3] * tn[2]) * t[0] * r[0],
        3 => {
            let p = [0, 1, 2]
                .map(|m| (tj[3 + m] * t[1] - tj[m] * t[2]) * (rj[3 + m] * r[1] - rj[m] * r[2]));
            k[0] * (p[0] + p[1] + p[2]) / test[0] / trial[0]
        }
        _ => k[0] * (rn[0] * tn[0] + rn[1] * tn[1] + rn[2] * tn[2]) * t[0] * r[0],
    }
}

fn value(job: &Job, k: &[f64], t: &[f64], r: &[f64], test: &[f64], trial: &[f64]) -> f64 {
    let of = |term: Term| {
        let value = kind_value(term.kind, k, t, r, test, trial);
        term.factor.map_or(value, |factor| factor * value)
    };
    let first = of(job.integrand.first);
    job.integrand.second.map_or(first, |term| first + of(term))
}

/// Entry (i, j) of the local matrix of a record.
fn local(job: &Job, numbers: &Numbers, record: [u32; 3], i: usize, j: usize) -> f64 {
    let rule = rule_of(&job.mesh.kinds, record);
    let [pattern, t, r] = record.map(|n| n as usize);
    let (k, d) = (numbers.width, numbers.rows);
    let (tt, rt) = (&numbers.test_tables[rule], &numbers.trial_tables[rule]);
    let test = numbers.geometry(rule, false, t);
    let trial = numbers.geometry(rule, true, r);
    let kernel = numbers.kernel(rule, t, r);
    let (tp, rp) = (test.len() / 10, trial.len() / 10);
    let at = |p: usize, q: usize, place: usize| {
        value(
            job,
            &kernel[k * place..],
            &tt[d * (p + tp * i)..],
            &rt[d * (q + rp * j)..],
            &test[10 * p..10 * p + 10],
            &trial[10 * q..10 * q + 10],
        )
    };
    let mut sum = 0.0;
    for p in 0..tp {
        if pattern == 255 {
            for q in 0..rp {
                let trial_weight = numbers.trial_weights[rule - DISTANT][q] * trial[10 * q];
                let test_weight = numbers.test_weights[rule - DISTANT][p] * test[10 * p];
                sum += at(p, q, p + tp * q) * trial_weight * test_weight;
            }
        } else {
            let jdets = test[10 * p] * trial[10 * p];
            sum += at(p, p, p) * (numbers.weights[rule][p] * jdets);
        }
    }
    sum
}

impl Assembler for Model {
    fn answer(&self, job: &Job, numbers: &Numbers) -> Result<Answer, Refused> {
        checks_to_6(job)?;
        let cells = Cells::new(&job.mesh);
        let (test, trial) = (space(&cells, job.test), space(&cells, job.trial));
        let (work, distant, kind_pairs) = work(job, &cells, &test, &trial)?;
        let starts = |elements: Elements| {
            let mut next = 0;
            let dims = (0..cells.len()).map(|cell| elements.dim(cells.kind(cell)));
            let start = dims.map(|dim| {
                next += dim;
                (next - dim, dim)
            });
            start.collect::<Vec<_>>()
        };
        let (test_starts, trial_starts) = (starts(job.test), starts(job.trial));
        let mut matrix = numbers.start((test.count * trial.count) as usize);
        let mut entries = Entries::default();
        for record in &work {
            let [_, t, r] = record.map(|n| n as usize);
            let ((first_row, m), (first_column, n)) = (test_starts[t], trial_starts[r]);
            for j in 0..n {
                for i in 0..m {
                    let (row, column) = (test.dofs[first_row + i], trial.dofs[first_column + j]);
                    let entry = local(job, numbers, *record, i, j);
                    matrix[(row + test.count * column) as usize] += entry;
                    if record[0] != 255 {
                        entries.rows.push(row);
                        entries.columns.push(column);
                        entries.values.push(entry);
                    }
                }
            }
        }
        Ok(Answer {
            test,
            trial,
            work,
            distant,
            kind_cells: [3, 4].map(|kind| {
                let of_kind = |cell: &usize| cells.kind(*cell) == kind;
                (0..cells.len()).filter(of_kind).count() as u32
            }),
            kind_pairs,
            entries,
            matrix,
        })
    }
}
