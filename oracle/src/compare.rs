//! Random jobs, each answered by the published Rust and by the others.
use oracle::answer::{difference, Answer, Assembler, Refused};
use oracle::job::{Elements, Job};
use oracle::meshes::{self, SHAPES};
use oracle::numbers::{Numbers, Size};
use oracle::quads::{self, Kinds};
use oracle::random::Random;
use std::collections::{BTreeMap, BTreeSet};

/// What the Rust's `HashMap` of patterns says when it is asked for one that it has not.
const NO_PATTERN: &str = "no entry found for key";

/// What the Rust and an assembler of the paper say to one job: the same answer, or a panic beside refusal 7.
fn agreement(
    rust: &Result<Answer, String>,
    ours: &Result<Answer, Refused>,
) -> Result<&'static str, String> {
    match (rust, ours) {
        (Ok(rust), Ok(ours)) => match difference(rust, ours) {
            None => Ok("same answer"),
            Some(text) => Err(text),
        },
        (Err(text), Err(Refused(7))) if text == NO_PATTERN => Ok("panic, refusal 7"),
        (Err(text), Err(Refused(n))) => Err(format!("panic {text:?}, refusal {n}")),
        (Err(text), Ok(_)) => Err(format!("panic {text:?}, an answer")),
        (Ok(_), Err(Refused(n))) => Err(format!("an answer, refusal {n}")),
    }
}

#[cfg(rust_at_hand)]
fn rust_answer(job: &Job, numbers: &Numbers) -> Option<Result<Answer, String>> {
    Some(oracle::rust::answer(job, numbers))
}

#[cfg(not(rust_at_hand))]
fn rust_answer(_: &Job, _: &Numbers) -> Option<Result<Answer, String>> {
    None
}

#[derive(Default)]
struct Tally {
    outcomes: BTreeMap<String, u64>,
    kinds: BTreeMap<String, u64>,
    elements: BTreeSet<Elements>,
    patterns: BTreeSet<u32>,
    batches: BTreeSet<u32>,
    points: BTreeSet<usize>,
    pairs: u64,
    numbers: u64,
    infinite: u64,
    nan: u64,
    differ: u64,
}

impl Tally {
    fn print(&self, jobs: u64, seed: u64) {
        for (name, n) in self.kinds.iter().chain(&self.outcomes) {
            println!("{n:8} {name}");
        }
        println!(
            "{} elements, {} patterns, batches from {} to {}, up to {} points, matrices with {} infinite numbers and {} NaN",
            self.elements.len(),
            self.patterns.len(),
            self.batches.first().unwrap_or(&0),
            self.batches.last().unwrap_or(&0),
            self.points.last().unwrap_or(&0),
            self.infinite,
            self.nan
        );
        println!(
            "{jobs} jobs from seed {seed}: {} pairs, {} matrix numbers, {} answers differ",
            self.pairs, self.numbers, self.differ
        );
    }

    /// Notes what a job is made of.
    fn made_of(&mut self, names: &[(String, bool)]) {
        for (name, holds) in names {
            *self.kinds.entry(name.clone()).or_default() += *holds as u64;
        }
    }

    /// Notes what was compared.
    fn note(&mut self, job: &Job, numbers: &Numbers, answer: &Answer) {
        self.elements.extend([job.test, job.trial]);
        let patterns = answer.work[answer.distant as usize..].iter().map(|r| r[0]);
        self.patterns.extend(patterns);
        self.batches.insert(job.batch);
        self.points.insert(numbers.most_points());
        self.pairs += answer.work.len() as u64;
        self.numbers += answer.matrix.len() as u64;
        self.infinite += answer.matrix.iter().filter(|x| x.is_infinite()).count() as u64;
        self.nan += answer.matrix.iter().filter(|x| x.is_nan()).count() as u64;
    }
}

type Others<'a> = &'a [(&'a str, &'a dyn Assembler)];

fn run_job(name: &str, job: &Job, numbers: &Numbers, others: Others, tally: &mut Tally) {
    let rust = rust_answer(job, numbers).expect("the Rust is at hand");
    if let Ok(answer) = &rust {
        tally.note(job, numbers, answer);
    }
    for (other_name, other) in others {
        let outcome = match agreement(&rust, &other.answer(job, numbers)) {
            Ok(text) => text.to_string(),
            Err(text) => {
                println!("job {name}: {other_name} differs: {text}");
                tally.differ += 1;
                "differs".to_string()
            }
        };
        *tally
            .outcomes
            .entry(format!("{other_name}: {outcome}"))
            .or_default() += 1;
    }
}

fn run_random(seed: u64, others: Others, tally: &mut Tally) {
    let mut random = Random::new(seed);
    let shape = SHAPES[random.below(SHAPES.len())];
    let large = random.once_in(12);
    let (job, made) = meshes::job(&mut random, shape, large);
    let (numbers, size) = meshes::numbers(&mut random, &job);
    let unused = made.unused_vertices + made.unused_edges > 0;
    tally.made_of(&[
        (format!("shape: {:?}", made.shape), true),
        (
            "cells repeated with the same list".to_string(),
            made.repeated > 0,
        ),
        ("cells repeated and turned".to_string(), made.turned > 0),
        ("unused vertices or edges".to_string(), unused),
    ]);
    tally.made_of(&of_numbers(&job, &numbers, size));
    run_job(&seed.to_string(), &job, &numbers, others, tally);
}

fn of_numbers(job: &Job, numbers: &Numbers, size: Size) -> [(String, bool); 2] {
    let agree = numbers.points().sides_agree(&job.mesh.kinds_present());
    [
        (format!("numbers: {size:?}"), true),
        ("test and trial point counts differ".to_string(), !agree),
    ]
}

/// A job of quads, once in three, or of quads and triangles.
fn random_quads(random: &mut Random) -> (Job, quads::Made) {
    let shape = quads::SHAPES[random.below(quads::SHAPES.len())];
    let kinds = [Kinds::Quads, Kinds::Both, Kinds::Both][random.below(3)];
    let large = random.once_in(12);
    quads::job(random, shape, kinds, large)
}

fn run_random_quads(seed: u64, others: Others, tally: &mut Tally) {
    let mut random = Random::new(seed);
    let (job, made) = random_quads(&mut random);
    let (numbers, size) = meshes::numbers(&mut random, &job);
    let cells = match job.mesh.kinds_present().as_slice() {
        [3] => "triangles",
        [4] => "quads",
        _ => "quads and triangles, the Rust corrected",
    };
    tally.made_of(&[
        (format!("shape: {:?}", made.shape), true),
        (format!("cells: {cells}"), true),
        (
            "cells repeated with the same list".to_string(),
            made.repeated > 0,
        ),
        (
            "cells that meet outside the table".to_string(),
            made.misfits + made.crossed > 0,
        ),
        ("unused vertices or edges".to_string(), made.unused > 0),
    ]);
    tally.made_of(&of_numbers(&job, &numbers, size));
    run_job(&seed.to_string(), &job, &numbers, others, tally);
}

/// Whether all agree on `jobs` jobs, made by `f` from the seeds from `seed` on.
fn run_all(seed: u64, jobs: u64, f: impl Fn(u64, Others, &mut Tally)) -> bool {
    if cfg!(not(rust_at_hand)) {
        println!("the published Rust is not at hand (BEMPP_RS): no comparison was made");
        return true;
    }
    std::panic::set_hook(Box::new(|_| {}));
    let others: Others = &[
        #[cfg(feature = "ours")]
        ("ours", &oracle::ours::Ours),
        ("the paper as plain Rust", &oracle::model::Model),
    ];
    let mut tally = Tally::default();
    for i in 0..jobs {
        f(seed.wrapping_add(i), others, &mut tally);
    }
    tally.print(jobs, seed);
    tally.differ == 0
}

/// Random jobs of triangles.
pub fn run(seed: u64, jobs: u64) -> bool {
    run_all(seed, jobs, run_random)
}

/// Random jobs with quads.
pub fn run_quads(seed: u64, jobs: u64) -> bool {
    run_all(seed, jobs, run_random_quads)
}

/// The largest meshes.
pub fn run_large(seed: u64, jobs: u64) -> bool {
    run_all_large(seed, jobs, meshes::large_job)
}

/// The largest meshes with quads.
pub fn run_large_quads(seed: u64, jobs: u64) -> bool {
    run_all_large(seed, jobs, quads::large_job)
}

type MakeLarge = fn(&mut Random, usize) -> (&'static str, Job);

fn run_all_large(seed: u64, jobs: u64, make: MakeLarge) -> bool {
    run_all(seed, jobs, |seed, others, tally| {
        let mut random = Random::new(seed);
        let (name, job) = make(&mut random, seed as usize);
        let (numbers, _) = meshes::numbers(&mut random, &job);
        *tally.kinds.entry(name.to_string()).or_default() += 1;
        run_job(&seed.to_string(), &job, &numbers, others, tally);
    })
}

/// What a refusal's number says, 0 standing for none.
#[cfg(feature = "ours")]
fn said(number: u32) -> String {
    match number {
        0 => "accepted".to_string(),
        _ => format!("refusal {number}"),
    }
}

/// Jobs with faults, which the Rust has no refusals for: ours beside the paper as plain Rust.
#[cfg(feature = "ours")]
pub fn run_refusals(seed: u64, jobs: u64) -> bool {
    let mut numbers_answered = BTreeMap::new();
    let mut differ = 0;
    for seed in seed..seed + jobs {
        let mut random = Random::new(seed);
        let mut job = match random.once_in(2) {
            true => meshes::job(&mut random, SHAPES[seed as usize % SHAPES.len()], false).0,
            false => random_quads(&mut random).0,
        };
        for _ in 0..random.from_to(1, 2) {
            meshes::spoil(&mut random, &mut job);
        }
        let (numbers, _) = meshes::numbers(&mut random, &job);
        let number =
            |answer: Result<Answer, Refused>| answer.map_or_else(|refused| refused.0, |_| 0);
        let paper = number(oracle::model::Model.answer(&job, &numbers));
        let ours = number(oracle::ours::Ours.answer(&job, &numbers));
        *numbers_answered.entry(paper).or_insert(0) += 1;
        if paper != ours {
            println!(
                "job {seed}: the paper as plain Rust {}, ours {}",
                said(paper),
                said(ours)
            );
            differ += 1;
        }
    }
    for (number, n) in numbers_answered {
        println!("{n:8} {}", said(number));
    }
    println!("{jobs} jobs with faults, {differ} answers differ");
    differ == 0
}
