//! Our side: the static library, by way of the host crate.
use crate::answer::{Answer, Assembler, Entries, Refused, Space};
use crate::job::{Elements, Job, Term};
use crate::numbers::{rule_of, Numbers, DISTANT};
use seivalto::{Distant, EntryLists, Lists, Mesh, Refusal, Run, Touching};

pub struct Ours;

fn refused(refusal: Refusal) -> Refused {
    Refused(refusal.number())
}

fn elements(elements: Elements) -> seivalto::Elements {
    let element = |[a, b, c]: [u32; 3]| seivalto::Element { a, b, c };
    seivalto::Elements {
        triangle: element(elements.triangle),
        quad: element(elements.quad),
    }
}

fn term(term: Term) -> seivalto::Term {
    match term.factor {
        None => seivalto::Term::Bare(term.kind),
        Some(factor) => seivalto::Term::Scaled(factor, term.kind),
    }
}

/// The kind list, the lists that planning writes, and the numbers that it hands back.
pub struct Plan {
    pub kinds: Vec<u8>,
    pub test: Space,
    pub trial: Space,
    pub work: Vec<u32>,
    pub numbers: seivalto::Numbers,
}

impl Plan {
    fn lent(&self) -> seivalto::Plan<'_> {
        seivalto::Plan {
            kinds: &self.kinds,
            test_dofs: &self.test.dofs,
            trial_dofs: &self.trial.dofs,
            work: &self.work,
        }
    }
}

fn empty_space(cells: usize, kinds: &[u8], elements: Elements) -> Space {
    let n = elements.places(kinds);
    Space {
        dofs: vec![0; n],
        count: 0,
        owners: vec![0; 3 * n],
        colours: vec![0; cells],
    }
}

/// Lists of the right lengths, and `seivalto::plan` on them.
pub struct Planner<'a> {
    job: &'a Job,
    test: Space,
    trial: Space,
    work: Vec<u32>,
}

impl<'a> Planner<'a> {
    pub fn new(job: &'a Job) -> Self {
        let (cells, kinds) = (job.mesh.cells as usize, &job.mesh.kinds);
        Self {
            job,
            test: empty_space(cells, kinds, job.test),
            trial: empty_space(cells, kinds, job.trial),
            work: vec![0; 3 * cells * cells],
        }
    }

    /// The call itself.
    pub fn plan(&mut self) -> Result<seivalto::Numbers, Refusal> {
        let (job, mesh) = (self.job, &self.job.mesh);
        let mesh = Mesh {
            cells: mesh.cells,
            vertices: mesh.vertices,
            edges: mesh.edges,
            kinds: &mesh.kinds,
            cell_vertices: &mesh.cell_vertices,
            cell_edges: &mesh.cell_edges,
        };
        let first = term(job.integrand.first);
        let integrand = match job.integrand.second {
            None => seivalto::Integrand::one(first),
            Some(second) => seivalto::Integrand::two(first, term(second)),
        };
        let lists = Lists {
            test_dofs: &mut self.test.dofs,
            trial_dofs: &mut self.trial.dofs,
            test_colours: &mut self.test.colours,
            trial_colours: &mut self.trial.colours,
            test_owners: &mut self.test.owners,
            trial_owners: &mut self.trial.owners,
            work: &mut self.work,
        };
        seivalto::plan(
            mesh,
            elements(job.test),
            elements(job.trial),
            job.batch,
            integrand,
            lists,
        )
    }

    /// The lists, with the numbers of the call before.
    pub fn finish(mut self, numbers: seivalto::Numbers) -> Plan {
        self.test.count = numbers.rows;
        self.trial.count = numbers.columns;
        Plan {
            kinds: self.job.mesh.kinds.clone(),
            test: self.test,
            trial: self.trial,
            work: self.work,
            numbers,
        }
    }
}

fn touching<'a>(numbers: &'a Numbers, pattern: usize, t: usize, r: usize) -> Touching<'a> {
    Touching {
        points: numbers.points_of(pattern, false),
        weights: &numbers.weights[pattern],
        test_table: &numbers.test_tables[pattern],
        trial_table: &numbers.trial_tables[pattern],
        kernel: numbers.kernel(pattern, t, r),
        test_geometry: numbers.geometry(pattern, false, t),
        trial_geometry: numbers.geometry(pattern, true, r),
    }
}

fn distant<'a>(numbers: &'a Numbers, rule: usize, t: usize, r: usize) -> Distant<'a> {
    Distant {
        test_points: numbers.points_of(rule, false),
        trial_points: numbers.points_of(rule, true),
        test_weights: &numbers.test_weights[rule - DISTANT],
        trial_weights: &numbers.trial_weights[rule - DISTANT],
        test_table: &numbers.test_tables[rule],
        trial_table: &numbers.trial_tables[rule],
        kernel: numbers.kernel(rule, t, r),
        test_geometry: numbers.geometry(rule, false, t),
        trial_geometry: numbers.geometry(rule, true, r),
    }
}

fn accepted((run, answer): (Run, Result<(), Refusal>)) -> Result<Run, Refusal> {
    answer.map(|_| run)
}

/// A whole dense run, to the refusal 20 at its end.
pub fn assemble(plan: &Plan, numbers: &Numbers, matrix: &mut [f64]) -> Result<(), Refusal> {
    let mut run = plan.numbers.begin();
    loop {
        let record = match run.look(plan.lent()) {
            (_, Err(Refusal::NoRecordLeft)) => return Ok(()),
            (_, record) => record?,
        };
        let (t, r) = (record.test_cell as usize, record.trial_cell as usize);
        run = accepted(match record.pattern {
            255 => {
                let rule = rule_of(&plan.kinds, [255, record.test_cell, record.trial_cell]);
                run.add_distant(plan.lent(), distant(numbers, rule, t, r), matrix)
            }
            pattern => {
                let lent = touching(numbers, pattern as usize, t, r);
                run.add_touching(plan.lent(), lent, matrix)
            }
        })?;
    }
}

/// A whole entries run.
pub fn entries(plan: &Plan, numbers: &Numbers) -> Result<Entries, Refusal> {
    let n = plan.numbers.entry_count();
    let mut entries = Entries {
        rows: vec![0; n],
        columns: vec![0; n],
        values: vec![0.0; n],
    };
    let mut run = plan.numbers.begin_entries();
    loop {
        let record = match run.look(plan.lent()) {
            (_, Err(Refusal::NoRecordLeft)) => return Ok(entries),
            (_, record) => record?,
        };
        let (t, r) = (record.test_cell as usize, record.trial_cell as usize);
        let lists = EntryLists {
            rows: &mut entries.rows,
            columns: &mut entries.columns,
            values: &mut entries.values,
        };
        let lent = touching(numbers, record.pattern as usize, t, r);
        run = accepted(run.add_entries(plan.lent(), lent, lists))?;
    }
}

/// The owner records that were written; the tail past them stays as it was.
fn owners(space: &Space) -> Vec<u32> {
    let (written, tail) = space.owners.split_at(3 * space.count as usize);
    assert!(tail.iter().all(|n| *n == 0));
    written.to_vec()
}

impl Assembler for Ours {
    fn answer(&self, job: &Job, numbers: &Numbers) -> Result<Answer, Refused> {
        let mut planner = Planner::new(job);
        let planned = planner.plan().map_err(refused)?;
        let pairs = planned.pairs;
        let mut plan = planner.finish(planned);
        let mut matrix = numbers.start((planned.rows * planned.columns) as usize);
        assemble(&plan, numbers, &mut matrix).map_err(refused)?;
        let entries = entries(&plan, numbers).map_err(refused)?;
        plan.test.owners = owners(&plan.test);
        plan.trial.owners = owners(&plan.trial);
        Ok(Answer {
            work: plan
                .work
                .chunks_exact(3)
                .map(|r| [r[0], r[1], r[2]])
                .collect(),
            distant: planned.distant,
            kind_cells: [planned.triangles, planned.quads],
            kind_pairs: [
                pairs.triangle_triangle,
                pairs.triangle_quad,
                pairs.quad_triangle,
                pairs.quad_quad,
            ],
            test: plan.test,
            trial: plan.trial,
            entries,
            matrix,
        })
    }
}
