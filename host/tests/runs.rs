//! The calls of a run on mesh M and on a mesh with quads, with good and bad arguments. A refused call leaves run, plan and lent lists as they were.
mod support;

use seivalto::*;
use support::*;

const TEST: Element = Element { a: 1, b: 0, c: 0 };
const TRIAL: Element = Element { a: 1, b: 0, c: 1 };

struct Planned {
    numbers: Numbers,
    lists: OwnedLists,
}

fn mesh_m_planned() -> Planned {
    let (numbers, lists) = planned(&mesh_m(), TEST, TRIAL, 2, SINGLE_LAYER);
    Planned { numbers, lists }
}

/// Four cells, two triangles and two quads. N is 10, S is 6; the quads have a DOF inside on the trial side, the triangles none.
fn mixed_planned() -> Planned {
    let trial = Elements {
        triangle: TEST,
        quad: TRIAL,
    };
    let mesh = edge_shared_and_two_more();
    let (numbers, lists) = planned(&mesh, TEST, trial, 2, SINGLE_LAYER);
    Planned { numbers, lists }
}

impl Planned {
    fn matrix(&self) -> Vec<f64> {
        numbers((self.numbers.rows * self.numbers.columns) as usize, 100)
    }

    /// The dims of the two cells of a record.
    fn dims(&self, record: Record) -> (usize, usize) {
        let kind = |cell: u32| self.lists.kinds[cell as usize];
        (
            self.numbers.test.dim(kind(record.test_cell)),
            self.numbers.trial.dim(kind(record.trial_cell)),
        )
    }

    /// What is lent for a record.
    fn distant(&self, record: Record, seed: u64) -> OwnedDistant {
        let (test, trial) = self.dims(record);
        OwnedDistant::new(3, 4, test, trial, seed)
    }

    fn touching(&self, record: Record, seed: u64) -> OwnedTouching {
        let (test, trial) = self.dims(record);
        OwnedTouching::new(5, test, trial, seed)
    }

    /// The DOFs of the two cells of a record: rows and columns.
    fn dofs(&self, record: Record) -> (&[u32], &[u32]) {
        (
            self.lists.test_dofs_of(self.numbers.test, record.test_cell),
            self.lists
                .trial_dofs_of(self.numbers.trial, record.trial_cell),
        )
    }

    fn dense_at(&self, position: u32) -> Run {
        Run {
            position,
            ..self.numbers.begin()
        }
    }

    fn entries_at(&self, position: u32) -> Run {
        Run {
            position,
            ..self.numbers.begin_entries()
        }
    }

    /// C·C.
    fn pairs(&self) -> u32 {
        self.numbers.cells * self.numbers.cells
    }

    /// Record p of the work list.
    fn record(&self, position: u32) -> Record {
        let at = 3 * position as usize;
        let [pattern, test_cell, trial_cell] = self.lists.work[at..][..3] else {
            unreachable!("three numbers a record")
        };
        Record {
            pattern,
            test_cell,
            trial_cell,
        }
    }
}

#[test]
fn beginning() {
    let m = mesh_m_planned();
    let run = m.numbers.begin();
    assert_eq!(run.numbers, m.numbers);
    assert_eq!((run.entries, run.position), (false, 0));
    let run = m.numbers.begin_entries();
    assert_eq!(run.numbers, m.numbers);
    assert_eq!((run.entries, run.position), (true, 4));
}

#[test]
fn whole_dense_runs() {
    whole_dense_run(&mesh_m_planned());
    whole_dense_run(&mixed_planned());
}

fn whole_dense_run(m: &Planned) {
    let mut matrix = m.matrix();
    let mut expected = matrix.clone();
    let mut run = m.numbers.begin();
    for position in 0..m.pairs() {
        let (same, record) = run.look(m.lists.plan());
        let record = record.expect("a record is left");
        assert_eq!((same, record), (run, m.record(position)));
        assert_eq!(record.pattern == 255, position < m.numbers.distant);
        let distant = m.distant(record, 50 * u64::from(position));
        let touching = m.touching(record, 50 * u64::from(position));
        let (next, answer) = if record.pattern == 255 {
            run.add_distant(m.lists.plan(), distant.lent(), &mut matrix)
        } else {
            run.add_touching(m.lists.plan(), touching.lent(), &mut matrix)
        };
        assert_eq!(answer, Ok(()));
        assert_eq!(
            next,
            Run {
                position: position + 1,
                ..run
            }
        );
        run = next;
        let (rows, columns) = m.dofs(record);
        for (j, column) in columns.iter().enumerate() {
            for (i, row) in rows.iter().enumerate() {
                expected[(row + m.numbers.rows * column) as usize] += if record.pattern == 255 {
                    distant.single_layer(i, j)
                } else {
                    touching.single_layer(i, j)
                };
            }
        }
        assert_eq!(bits(&matrix), bits(&expected), "record {position}");
    }
    let end = Err(Refusal::NoRecordLeft);
    assert_eq!(run.look(m.lists.plan()), (run, Err(Refusal::NoRecordLeft)));
    let (distant, touching) = (m.distant(m.record(0), 1), m.touching(m.record(0), 9));
    assert_eq!(
        run.add_distant(m.lists.plan(), distant.lent(), &mut matrix),
        (run, end)
    );
    assert_eq!(
        run.add_touching(m.lists.plan(), touching.lent(), &mut matrix),
        (run, end)
    );
    assert_eq!(bits(&matrix), bits(&expected));
}

/// M has five touching pairs of 3 times 4 entries. The other mesh has 3 times 3 entries for each of its two pairs of triangles, 3 times 5 for the triangle with
/// the quad, 4 times 3 for the quad with the triangle, and 4 times 5 for each of its two pairs of quads.
#[test]
fn whole_entries_runs() {
    whole_entries_run(&mesh_m_planned(), &[0, 12, 24, 36, 48, 60]);
    whole_entries_run(&mixed_planned(), &[0, 9, 18, 33, 45, 65, 85]);
}

/// The entries of record N + q stand from `starts[q]` to `starts[q + 1]`.
fn whole_entries_run(m: &Planned, starts: &[usize]) {
    let count = *starts.last().expect("an end");
    assert_eq!(m.numbers.entry_count(), count);
    let (mut rows, mut columns, mut values) =
        (vec![BLANK; count], vec![BLANK; count], numbers(count, 7));
    let (mut expected_rows, mut expected_columns, mut expected_values) =
        (rows.clone(), columns.clone(), values.clone());
    let mut run = m.numbers.begin_entries();
    let first = m.numbers.distant;
    for position in first..m.pairs() {
        let record = m.record(position);
        assert_eq!(run.look(m.lists.plan()), (run, Ok(record)));
        let touching = m.touching(record, 50 * u64::from(position));
        let lists = EntryLists {
            rows: &mut rows,
            columns: &mut columns,
            values: &mut values,
        };
        let (next, answer) = run.add_entries(m.lists.plan(), touching.lent(), lists);
        assert_eq!(answer, Ok(()));
        assert_eq!(
            next,
            Run {
                position: position + 1,
                ..run
            }
        );
        run = next;
        let q = (position - first) as usize;
        let mut at = starts[q];
        let (test, trial) = m.dofs(record);
        for (j, column) in trial.iter().enumerate() {
            for (i, row) in test.iter().enumerate() {
                expected_rows[at] = *row;
                expected_columns[at] = *column;
                expected_values[at] = touching.single_layer(i, j);
                at += 1;
            }
        }
        assert_eq!(at, starts[q + 1]);
        assert_eq!((&rows, &columns), (&expected_rows, &expected_columns));
        assert_eq!(bits(&values), bits(&expected_values));
    }
    let lists = EntryLists {
        rows: &mut rows,
        columns: &mut columns,
        values: &mut values,
    };
    let touching = m.touching(m.record(first), 9);
    let answer = run.add_entries(m.lists.plan(), touching.lent(), lists);
    assert_eq!(answer, (run, Err(Refusal::NoRecordLeft)));
    assert_eq!(bits(&values), bits(&expected_values));
}

#[test]
fn the_largest_pairs_on_a_small_stack() {
    on_a_stack_of(300, || {
        let element = Element { a: 1, b: 2, c: 1 };
        let integrand = Integrand::two(Term::Scaled(-0.5, 3), Term::Scaled(2.0, 1));
        let (n, lists) = planned(&mesh_m(), element, element, 1, integrand);
        let widths = Widths { k: 4, d: 3 };
        let dim = element.dim(TRIANGLE);
        let distant = OwnedDistant::wide(widths, 64, 64, dim, dim, 1);
        let touching = OwnedTouching::wide(widths, 2048, dim, dim, 2);
        let mut matrix = vec![0.0; (n.rows * n.columns) as usize];
        let mut run = n.begin();
        for position in 0..9 {
            let (next, answer) = if position < n.distant {
                run.add_distant(lists.plan(), distant.lent(), &mut matrix)
            } else {
                run.add_touching(lists.plan(), touching.lent(), &mut matrix)
            };
            assert_eq!(answer, Ok(()));
            run = next;
        }
        assert_eq!(run.position, 9);
        assert!(matrix.iter().any(|x| *x != 0.0));
    });
}

/// What a refused call is given, which a test changes.
struct Case {
    run: Run,
    lists: OwnedLists,
    distant: OwnedDistant,
    touching: OwnedTouching,
    matrix: Vec<f64>,
    rows: Vec<u32>,
    columns: Vec<u32>,
    values: Vec<f64>,
}

#[derive(Clone, Copy, PartialEq, Debug)]
enum Call {
    Look,
    Distant,
    Touching,
    Entries,
}

const ALL: [Call; 4] = [Call::Look, Call::Distant, Call::Touching, Call::Entries];

/// A case on mesh M that the call accepts.
fn good(call: Call) -> Case {
    let m = mesh_m_planned();
    let run = match call {
        Call::Look | Call::Distant => m.dense_at(1),
        Call::Touching => m.dense_at(6),
        Call::Entries => m.entries_at(6),
    };
    Case::new(m, run)
}

/// One on the mesh with quads: at a distant record with a quad as test cell and a triangle as trial cell, and at a touching one with a triangle and a quad.
fn good_mixed(call: Call) -> Case {
    let m = mixed_planned();
    let run = match call {
        Call::Look | Call::Distant => m.dense_at(6),
        Call::Touching => m.dense_at(12),
        Call::Entries => m.entries_at(12),
    };
    Case::new(m, run)
}

impl Case {
    /// A run at a record, and what its calls are lent.
    fn new(m: Planned, run: Run) -> Case {
        let count = m.numbers.entry_count();
        let record = m.record(run.position);
        Case {
            run,
            matrix: m.matrix(),
            rows: vec![BLANK; count],
            columns: vec![BLANK; count],
            values: numbers(count, 5),
            distant: m.distant(record, 1),
            touching: m.touching(record, 9),
            lists: m.lists,
        }
    }

    fn call(&mut self, call: Call) -> (Run, Result<(), Refusal>) {
        let plan = self.lists.plan();
        match call {
            Call::Look => {
                let (run, answer) = self.run.look(plan);
                (run, answer.map(|_| ()))
            }
            Call::Distant => self
                .run
                .add_distant(plan, self.distant.lent(), &mut self.matrix),
            Call::Touching => self
                .run
                .add_touching(plan, self.touching.lent(), &mut self.matrix),
            Call::Entries => {
                let lists = EntryLists {
                    rows: &mut self.rows,
                    columns: &mut self.columns,
                    values: &mut self.values,
                };
                self.run.add_entries(plan, self.touching.lent(), lists)
            }
        }
    }

    fn written(&self) -> (Vec<u64>, Vec<u32>, Vec<u32>, Vec<u64>) {
        (
            bits(&self.matrix),
            self.rows.clone(),
            self.columns.clone(),
            bits(&self.values),
        )
    }

    /// The call gets that refusal, hands the run back as it was and writes nothing.
    fn refused(&mut self, call: Call, refusal: Refusal, note: &str) {
        let run = self.run;
        let before = (self.lists.clone(), self.written());
        let (back, answer) = self.call(call);
        assert_eq!(answer, Err(refusal), "{call:?}, {note}");
        assert_eq!(format!("{back:?}"), format!("{run:?}"), "{call:?}, {note}");
        assert!(
            before == (self.lists.clone(), self.written()),
            "{call:?}, {note}: something was written"
        );
    }
}

fn refused(calls: &[Call], refusal: Refusal, changes: &[fn(&mut Case)]) {
    refused_on(good, calls, refusal, changes);
}

fn refused_on(good: fn(Call) -> Case, calls: &[Call], refusal: Refusal, changes: &[fn(&mut Case)]) {
    for call in calls {
        for (k, change) in changes.iter().enumerate() {
            let mut case = good(*call);
            change(&mut case);
            case.refused(*call, refusal, &format!("change {k}"));
        }
    }
}

#[test]
fn the_good_cases_are_accepted() {
    for call in ALL {
        accepted(good(call), call);
        accepted(good_mixed(call), call);
    }
}

/// The call is accepted, and hands the run back, at the next record but for a look.
fn accepted(mut case: Case, call: Call) {
    let moved = u32::from(call != Call::Look);
    let next = Run {
        position: case.run.position + moved,
        ..case.run
    };
    assert_eq!(case.call(call), (next, Ok(())), "{call:?}");
}

#[test]
fn refusal_9() {
    refused(
        &[Call::Distant],
        Refusal::PointCount,
        &[
            |c| c.distant.test_points = 0,
            |c| c.distant.trial_points = 0,
            |c| c.distant.test_points = 65,
            |c| c.distant.trial_points = 65,
            |c| c.distant.test_points = usize::MAX,
            |c| c.distant.trial_points = usize::MAX,
        ],
    );
    refused(
        &[Call::Touching, Call::Entries],
        Refusal::PointCount,
        &[
            |c| c.touching.points = 0,
            |c| c.touching.points = 2049,
            |c| c.touching.points = usize::MAX,
        ],
    );
}

#[test]
fn refusal_10() {
    refused(
        &[Call::Distant],
        Refusal::LentLength,
        &[
            |c| c.distant.test_points = 2,
            |c| c.distant.test_weights.push(1.0),
            |c| c.distant.trial_weights.clear(),
            |c| c.distant.test_table.truncate(8),
            |c| c.distant.trial_table.push(1.0),
            |c| c.distant.kernel.truncate(11),
            |c| c.distant.test_geometry.truncate(29),
            |c| c.distant.trial_geometry.push(1.0),
            |c| c.run.numbers.integrand = Integrand::one(Term::Bare(1)),
            |c| c.run.numbers.integrand = Integrand::one(Term::Scaled(2.0, 3)),
        ],
    );
    refused(
        &[Call::Touching, Call::Entries],
        Refusal::LentLength,
        &[
            |c| c.touching.points = 4,
            |c| c.touching.weights.push(1.0),
            |c| c.touching.test_table.clear(),
            |c| c.touching.trial_table.push(1.0),
            |c| c.touching.kernel.truncate(4),
            |c| c.touching.test_geometry.truncate(49),
            |c| c.touching.trial_geometry.push(1.0),
            |c| c.run.numbers.integrand = Integrand::two(Term::Bare(0), Term::Bare(2)),
        ],
    );
}

/// Tables are as long as the dims of the record's own cells say.
#[test]
fn refusal_10_by_kind() {
    refused_on(
        good_mixed,
        &[Call::Distant],
        Refusal::LentLength,
        &[
            |c| c.distant.test_table.truncate(3 * 3),
            |c| c.distant.trial_table.resize(4 * 5, 1.0),
        ],
    );
    refused_on(
        good_mixed,
        &[Call::Touching, Call::Entries],
        Refusal::LentLength,
        &[
            |c| c.touching.test_table.resize(5 * 4, 1.0),
            |c| c.touching.trial_table.truncate(5 * 4),
            |c| c.touching.trial_table.truncate(5 * 3),
        ],
    );
}

#[test]
fn refusal_11() {
    refused(
        &[Call::Distant],
        Refusal::LentNumber,
        &[
            |c| c.distant.test_weights[2] = f64::NAN,
            |c| c.distant.trial_weights[3] = f64::INFINITY,
            |c| c.distant.test_table[8] = f64::NEG_INFINITY,
            |c| c.distant.trial_table[15] = f64::NAN,
            |c| c.distant.kernel[11] = f64::NAN,
            |c| c.distant.test_geometry[29] = f64::NAN,
            |c| c.distant.trial_geometry[39] = f64::INFINITY,
            |c| c.distant.test_geometry[20] = 0.0,
            |c| c.distant.trial_geometry[30] = -1.0,
        ],
    );
    refused(
        &[Call::Touching, Call::Entries],
        Refusal::LentNumber,
        &[
            |c| c.touching.weights[4] = f64::NAN,
            |c| c.touching.test_table[14] = f64::INFINITY,
            |c| c.touching.trial_table[19] = f64::NAN,
            |c| c.touching.kernel[4] = f64::NEG_INFINITY,
            |c| c.touching.test_geometry[49] = f64::NAN,
            |c| c.touching.trial_geometry[40] = -0.0,
        ],
    );
}

#[test]
fn refusal_20() {
    refused(&ALL, Refusal::NoRecordLeft, &[|c| c.run.position = 9]);
}

#[test]
fn refusal_21_of_the_run() {
    refused(
        &ALL,
        Refusal::Run,
        &[
            |c| c.run.numbers.cells = 0,
            |c| c.run.numbers.cells = 2049,
            |c| c.run.numbers.cells = 2,
            |c| c.run.numbers.cells = u32::MAX,
            |c| c.run.numbers.vertices = 2,
            |c| c.run.numbers.edges = 8193,
            |c| c.run.numbers.distant = 10,
            |c| c.run.numbers.distant = u32::MAX,
            |c| c.run.numbers.rows = 10,
            |c| c.run.numbers.columns = 13,
            |c| c.run.numbers.rows = u32::MAX,
            |c| c.run.numbers.test.triangle.a = 4,
            |c| c.run.numbers.trial.triangle.c = u32::MAX,
            |c| c.run.numbers.integrand.terms = 0,
            |c| c.run.numbers.integrand.first = Term::Bare(5),
            |c| c.run.numbers.integrand = Integrand::two(Term::Bare(0), Term::Scaled(f64::NAN, 0)),
            |c| c.run.position = 10,
            |c| c.run.position = u32::MAX,
            |c| {
                c.run.entries = true;
                c.run.position = 3;
            },
        ],
    );
}

/// The last numbers of the ranges of V and E.
#[test]
fn the_most_vertices_and_edges() {
    for call in ALL {
        let mut case = good(call);
        (case.run.numbers.vertices, case.run.numbers.edges) = (4096, 8192);
        accepted(case, call);
    }
}

/// The cells match the kind list.
#[test]
fn refusal_21_of_kinds() {
    refused(
        &ALL,
        Refusal::Run,
        &[
            |c| c.lists.kinds.truncate(2),
            |c| c.lists.kinds.push(TRIANGLE),
            |c| c.lists.kinds.clear(),
            |c| c.lists.kinds[0] = QUAD,
            |c| c.lists.kinds[2] = 0,
            |c| c.lists.kinds[1] = 255,
            |c| c.run.numbers.triangles = 2,
            |c| c.run.numbers.triangles = 4,
            |c| c.run.numbers.triangles = 0,
            |c| c.run.numbers.triangles = u32::MAX,
            |c| c.run.numbers.quads = 1,
            |c| c.run.numbers.quads = u32::MAX,
            |c| {
                c.run.numbers.triangles = 2;
                c.run.numbers.quads = 1;
            },
        ],
    );
    refused_on(
        good_mixed,
        &ALL,
        Refusal::Run,
        &[
            |c| c.lists.kinds[0] = QUAD,
            |c| c.lists.kinds[1] = TRIANGLE,
            |c| c.lists.kinds[1] = 5,
            |c| c.lists.kinds.truncate(3),
            |c| c.lists.kinds.push(QUAD),
            |c| c.lists.kinds.fill(TRIANGLE),
            |c| c.lists.kinds.fill(QUAD),
            |c| c.run.numbers.triangles = 3,
            |c| c.run.numbers.quads = 1,
            |c| {
                c.run.numbers.triangles = 4;
                c.run.numbers.quads = 0;
            },
            |c| {
                c.run.numbers.triangles = 3;
                c.run.numbers.quads = u32::MAX;
            },
        ],
    );
}

/// The elements are read as check 4 reads them.
#[test]
fn refusal_21_of_elements() {
    let unread: [fn(&mut Case); 3] = [
        |c| c.run.numbers.test.quad.c = 0,
        |c| c.run.numbers.trial.quad.a = u32::MAX,
        |c| c.run.numbers.test.quad.b = 9,
    ];
    for change in unread {
        for call in ALL {
            let mut case = good(call);
            change(&mut case);
            accepted(case, call);
        }
    }
    refused_on(
        good_mixed,
        &ALL,
        Refusal::Run,
        &[
            |c| c.run.numbers.test.quad.a = 0,
            |c| c.run.numbers.test.quad.a = 2,
            |c| c.run.numbers.trial.triangle.a = 2,
            |c| c.run.numbers.trial.quad.b = 1,
            |c| c.run.numbers.trial.quad.c = 7,
            |c| c.run.numbers.trial.quad.c = 2,
            |c| c.run.numbers.test.triangle.c = u32::MAX,
            |c| c.run.numbers.trial.quad.c = u32::MAX - 2,
            |c| {
                c.run.numbers.test.triangle.a = 1 << 30;
                c.run.numbers.test.quad.a = 1 << 30;
            },
        ],
    );
}

/// The pairs per two kinds add up to S, and S + N = C·C, in whole numbers.
#[test]
fn refusal_21_of_pairs() {
    refused(
        &ALL,
        Refusal::Run,
        &[
            |c| c.run.numbers.touching = 4,
            |c| c.run.numbers.touching = u32::MAX,
            |c| c.run.numbers.distant = 3,
            |c| c.run.numbers.distant = 5,
            |c| c.run.numbers.pairs.triangle_triangle = 4,
            |c| c.run.numbers.pairs.triangle_quad = 1,
            |c| c.run.numbers.pairs.quad_quad = u32::MAX,
            |c| {
                c.run.numbers.pairs.triangle_triangle = 6;
                c.run.numbers.pairs.quad_quad = u32::MAX;
            },
            |c| {
                c.run.numbers.pairs.triangle_quad = u32::MAX;
                c.run.numbers.pairs.quad_triangle = 1;
            },
            |c| {
                c.run.numbers.pairs = KindPairs {
                    triangle_triangle: (1 << 30) + 5,
                    triangle_quad: 1 << 30,
                    quad_triangle: 1 << 30,
                    quad_quad: 1 << 30,
                };
            },
            |c| {
                c.run.numbers.touching = u32::MAX;
                c.run.numbers.pairs.triangle_triangle = u32::MAX;
                c.run.numbers.distant = 10;
            },
            |c| {
                c.run.numbers.touching = u32::MAX - 6;
                c.run.numbers.pairs.triangle_triangle = u32::MAX - 6;
                c.run.numbers.distant = 16;
            },
            |c| {
                c.run.numbers.touching = 4;
                c.run.numbers.distant = 5;
            },
            |c| {
                c.run.numbers.touching = 0;
                c.run.numbers.pairs.triangle_triangle = 0;
            },
        ],
    );
    refused_on(
        good_mixed,
        &ALL,
        Refusal::Run,
        &[
            |c| c.run.numbers.pairs.triangle_quad = 0,
            |c| c.run.numbers.pairs.quad_triangle = 2,
            |c| c.run.numbers.touching = 7,
            |c| c.run.numbers.distant = 9,
            |c| {
                c.run.numbers.touching = 7;
                c.run.numbers.pairs.quad_quad = 3;
            },
            |c| {
                c.run.numbers.touching = 7;
                c.run.numbers.distant = 9;
            },
        ],
    );
}

/// Rows and columns are at most, and DOF lists as long, as the cells' own dims add up to: 14 and 16.
#[test]
fn refusal_21_of_rows_and_columns() {
    refused_on(
        good_mixed,
        &ALL,
        Refusal::Run,
        &[
            |c| c.run.numbers.rows = 15,
            |c| c.run.numbers.columns = 17,
            |c| c.run.numbers.columns = u32::MAX,
            |c| c.lists.test_dofs.truncate(12),
            |c| c.lists.test_dofs.push(0),
            |c| c.lists.trial_dofs.truncate(14),
            |c| c.lists.trial_dofs.resize(20, 0),
            |c| c.lists.work.truncate(47),
        ],
    );
    for (rows, columns) in [(14, 14), (12, 16), (14, 16)] {
        for call in ALL {
            let mut case = good_mixed(call);
            (case.run.numbers.rows, case.run.numbers.columns) = (rows, columns);
            case.matrix.resize((rows * columns) as usize, 0.0);
            accepted(case, call);
        }
    }
}

#[test]
fn refusal_21_of_what_is_lent() {
    refused(
        &ALL,
        Refusal::Run,
        &[
            |c| c.lists.test_dofs.push(0),
            |c| c.lists.trial_dofs.clear(),
            |c| c.lists.work.truncate(26),
            |c| c.lists.work.clear(),
        ],
    );
    refused(
        &[Call::Distant, Call::Touching],
        Refusal::Run,
        &[
            |c| c.matrix.push(0.0),
            |c| c.matrix.clear(),
            |c| c.run.numbers.rows = 6,
        ],
    );
    refused(
        &[Call::Entries],
        Refusal::Run,
        &[
            |c| c.rows.push(0),
            |c| c.columns.clear(),
            |c| c.values.truncate(59),
            |c| c.run.numbers.distant = 3,
        ],
    );
    refused_on(
        good_mixed,
        &[Call::Entries],
        Refusal::Run,
        &[
            |c| c.rows.push(0),
            |c| c.columns.truncate(84),
            |c| c.values.truncate(6 * 9),
            |c| {
                c.run.numbers.pairs.triangle_triangle = 3;
                c.run.numbers.pairs.quad_quad = 1;
            },
        ],
    );
}

#[test]
fn refusal_22() {
    refused(
        &ALL,
        Refusal::Record,
        &[
            |c| c.lists.work[3 * c.run.position as usize] = 149,
            |c| c.lists.work[3 * c.run.position as usize] = 254,
            |c| c.lists.work[3 * c.run.position as usize] = 256,
            |c| c.lists.work[3 * c.run.position as usize] = u32::MAX,
            |c| c.lists.work[3 * c.run.position as usize + 1] = 3,
            |c| c.lists.work[3 * c.run.position as usize + 2] = u32::MAX,
            |c| c.lists.test_dofs.fill(7),
            |c| c.lists.trial_dofs.fill(u32::MAX),
        ],
    );
    refused_on(
        good_mixed,
        &ALL,
        Refusal::Record,
        &[
            |c| c.lists.work[3 * c.run.position as usize] = 149,
            |c| c.lists.work[3 * c.run.position as usize + 1] = 4,
            |c| c.lists.work[3 * c.run.position as usize + 2] = 4,
            |c| c.lists.test_dofs.fill(12),
            |c| c.lists.trial_dofs.fill(14),
        ],
    );
}

/// A DOF of another cell than the record's two is not read, whatever the cells before have: the last number of a cell and the first of the next.
#[test]
fn refusal_22_reads_the_dofs_of_the_record_alone() {
    for (call, test, trial) in [
        (Call::Distant, 10..14, 8..11),
        (Call::Touching, 0..3, 3..8),
        (Call::Entries, 0..3, 3..8),
    ] {
        for place in 0..14 {
            let mut case = good_mixed(call);
            case.lists.test_dofs[place] = 12;
            if test.contains(&place) {
                case.refused(call, Refusal::Record, &format!("test DOF {place}"));
            } else {
                accepted(case, call);
            }
        }
        for place in 0..16 {
            let mut case = good_mixed(call);
            case.lists.trial_dofs[place] = u32::MAX;
            if trial.contains(&place) {
                case.refused(call, Refusal::Record, &format!("trial DOF {place}"));
            } else {
                accepted(case, call);
            }
        }
    }
}

/// Pairs per two kinds that put cells of other kinds at p, with entry lists of the length that they give.
fn other_pairs(case: &mut Case, pairs: [u32; 4]) {
    let [triangle_triangle, triangle_quad, quad_triangle, quad_quad] = pairs;
    case.run.numbers.pairs = KindPairs {
        triangle_triangle,
        triangle_quad,
        quad_triangle,
        quad_quad,
    };
    let count = [9, 15, 12, 20]
        .iter()
        .zip(pairs)
        .map(|(entries, pairs)| entries * pairs as usize)
        .sum();
    case.rows.resize(count, BLANK);
    case.columns.resize(count, BLANK);
    case.values.resize(count, 0.25);
}

/// The record at p is the third touching one, a triangle with a quad.
#[test]
fn refusal_22_of_the_entries_call() {
    for pairs in [
        [3, 1, 0, 2],
        [6, 0, 0, 0],
        [2, 0, 1, 3],
        [2, 0, 0, 4],
        [1, 1, 2, 2],
        [0, 0, 0, 6],
        [0, 2, 2, 2],
    ] {
        let mut case = good_mixed(Call::Entries);
        other_pairs(&mut case, pairs);
        case.refused(Call::Entries, Refusal::Record, &format!("{pairs:?}"));
        case.touching.points = 0;
        case.run.entries = false;
        case.refused(Call::Entries, Refusal::Record, &format!("{pairs:?}, dense"));
        accepted(case, Call::Look);
        let mut case = good_mixed(Call::Touching);
        other_pairs(&mut case, pairs);
        accepted(case, Call::Touching);
    }
    for pairs in [[2, 2, 0, 2], [0, 6, 0, 0], [2, 1, 0, 3], [1, 5, 0, 0]] {
        let mut case = good_mixed(Call::Entries);
        other_pairs(&mut case, pairs);
        accepted(case, Call::Entries);
    }
}

/// The kind list may give the record's cells other kinds: two cells of other kinds that trade places.
#[test]
fn refusal_22_by_the_kind_list() {
    let mut case = good_mixed(Call::Entries);
    case.lists.kinds = vec![QUAD, TRIANGLE, TRIANGLE, QUAD];
    case.refused(Call::Entries, Refusal::Record, "a quad with a triangle");
    let mut case = good_mixed(Call::Entries);
    let at = 3 * case.run.position as usize;
    case.lists.work[at + 1..at + 3].copy_from_slice(&[1, 0]);
    case.refused(Call::Entries, Refusal::Record, "the cells trade places");
    let mut case = good_mixed(Call::Entries);
    case.lists.work[at + 1..at + 3].copy_from_slice(&[2, 3]);
    accepted(case, Call::Entries);
}

/// Before N the pairs per two kinds put nothing anywhere: a dense run gets 23.
#[test]
fn refusal_23_before_the_touching_records() {
    for position in 0..10 {
        for pairs in [[2, 1, 1, 2], [6, 0, 0, 0], [0, 0, 0, 6]] {
            let mut case = good_mixed(Call::Entries);
            other_pairs(&mut case, pairs);
            case.run.entries = false;
            case.run.position = position;
            case.refused(Call::Entries, Refusal::Kind, &format!("at {position}"));
            case.lists.work[3 * position as usize] = 28;
            case.refused(Call::Entries, Refusal::Kind, "a touching pattern there");
            case.run.entries = true;
            case.refused(Call::Entries, Refusal::Run, "an entries run before N");
        }
    }
    for position in 10..16 {
        let mut case = good_mixed(Call::Entries);
        case.run.entries = false;
        case.run.position = position;
        case.refused(Call::Entries, Refusal::Kind, &format!("at {position}"));
    }
}

#[test]
fn refusal_23() {
    refused(&[Call::Distant], Refusal::Kind, &[|c| c.run.position = 4]);
    refused(&[Call::Touching], Refusal::Kind, &[|c| c.run.position = 3]);
    refused(
        &[Call::Touching],
        Refusal::Kind,
        &[|c| c.run.entries = true],
    );
    refused(
        &[Call::Distant],
        Refusal::Kind,
        &[|c| {
            c.run.entries = true;
            c.run.numbers.distant = 1;
            c.run.numbers.touching = 8;
            c.run.numbers.pairs.triangle_triangle = 8;
        }],
    );
    refused(
        &[Call::Entries],
        Refusal::Kind,
        &[|c| c.run.entries = false],
    );
    refused(
        &[Call::Entries],
        Refusal::Kind,
        &[|c| c.lists.work[3 * c.run.position as usize] = 255],
    );
}

/// Runs, plans and counts with arbitrary numbers: a call is accepted, and moves the run by 1, or changes nothing.
#[test]
fn forged_runs_do_no_harm() {
    let mut state = 20_241_229_u64;
    let mut next = move || {
        state = state
            .wrapping_mul(6_364_136_223_846_793_005)
            .wrapping_add(1_442_695_040_888_963_407);
        state >> 33
    };
    let mut accepted = 0;
    for _ in 0..20_000 {
        let call = ALL[next() as usize % 4];
        let mut case = match next() % 2 {
            0 => good(call),
            _ => good_mixed(call),
        };
        for _ in 0..=next() % 3 {
            forge(&mut case, &mut next);
        }
        let before = (case.run, case.written());
        let (run, answer) = case.call(call);
        if answer.is_ok() {
            accepted += 1;
            let moved = u32::from(call != Call::Look);
            assert_eq!(run.position, before.0.position + moved);
        } else {
            assert_eq!(format!("{run:?}"), format!("{:?}", before.0));
            assert!(case.written() == before.1);
        }
        let same = Run {
            position: run.position,
            ..before.0
        };
        assert_eq!(format!("{run:?}"), format!("{same:?}"));
    }
    assert!(accepted > 100, "{accepted} accepted");
}

/// Another number at one place.
fn forge(case: &mut Case, next: &mut impl FnMut() -> u64) {
    let number = match next() % 4 {
        0 => next() as u32 % 12,
        1 => next() as u32 % 5000,
        2 => u32::MAX - next() as u32 % 12,
        _ => (next() as u32).wrapping_mul(3),
    };
    let n = &mut case.run.numbers;
    match next() % 29 {
        0 => n.cells = number,
        1 => n.vertices = number,
        2 => n.edges = number,
        3 => n.touching = number,
        4 => n.distant = number,
        5 => n.rows = number,
        6 => n.columns = number,
        7 => n.test.triangle.a = number,
        8 => n.trial.triangle.b = number,
        9 => n.test.quad.c = number,
        10 => n.trial.quad.a = number,
        11 => n.triangles = number,
        12 => n.quads = number,
        13 => n.pairs.triangle_triangle = number,
        14 => n.pairs.triangle_quad = number,
        15 => n.pairs.quad_triangle = number,
        16 => n.pairs.quad_quad = number,
        17 => n.integrand.terms = number,
        18 => n.integrand.first = Term::Bare(number),
        19 => n.integrand.second = Term::Scaled(f64::from_bits(u64::from(number) << 32), number),
        20 => case.run.position = number,
        21 => case.run.entries = !case.run.entries,
        22 => put(&mut case.lists.work, number),
        23 => put(&mut case.lists.test_dofs, number),
        24 => put(&mut case.lists.trial_dofs, number),
        25 => {
            let place = number as usize % case.lists.kinds.len();
            case.lists.kinds[place] = number as u8;
        }
        26 => case.distant.test_points = number as usize,
        27 => case.touching.points = number as usize,
        _ => case.matrix.resize(number as usize % 100, 0.0),
    }
}

/// A number at a place of a list.
fn put(list: &mut [u32], number: u32) {
    let place = number as usize % list.len();
    list[place] = number;
}
