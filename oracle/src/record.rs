//! Writes a sample of the published Rust's answers, for a program that replays them against other code with no Rust at hand.
//!
//! The file is words of 16 hexadecimal digits, a blank after each and a line feed after the last of a line. A float is written by its bits, each NaN as
//! 7ff8000000000000. A line of numbers packs four in a word, four digits each, the last word filled up with zeros; it is empty where there are none.
//!
//!     line 1     how many cases
//!     line 2     400 floats: geometry of 40 points, ten floats each
//!     line 3     512 floats, the pool
//!
//! Then each case, in lines:
//!     sizes      C, V, E, batch (one word of four numbers)
//!     forms      one word, a digit each: test a, b, c; trial a, b, c; number of terms; form (0 bare, 1 with a factor) and kind of the first term, the same of
//!                the second; test points, trial points and points of a touching pair; what the Rust answers (0 an answer, 7 a panic for want of a
//!                pattern); 0
//!     factors    two floats, 0 for a term that is bare or not there
//!     lengths    24 numbers, the lengths of lists, so that no reader multiplies: vertices, test DOFs, trial DOFs, colours, test owners, trial owners (as
//!                planning wants them), work, lent (8·C·C); test owners, trial owners (as planning writes them), matrix, entries (these four 0 where there is
//!                no answer); of a distant add test weights, trial weights, test table, trial table, kernel, test geometry, trial geometry; of a touching add
//!                weights, test table, trial table, kernel, geometry
//!     vertices   3·C numbers
//!     edges      3·C numbers
//! and, where there is an answer,
//!     counts     rows, columns, N, S (one word)
//!     test DOFs (C·dim numbers), trial DOFs, test colours (C), trial colours, test owners (3·rows: dimension, entity, place), trial owners (3·columns)
//!     work       3·C·C numbers
//!     lent       for each record two words of four numbers, where the lists lent to its add begin: test weights, trial weights, test table, trial table in the
//!                pool (trial weights 0 for a touching pair, whose weights are the test weights); kernel in the pool, test geometry, trial geometry; 0
//!     entry rows, entry columns (S·test dim·trial dim numbers each), entry values (floats)
//!     matrix     rows·columns floats, from a start that has float i of the pool at place i
use oracle::answer::Answer;
use oracle::job::{Job, Term, TRIANGLE};
use oracle::meshes::{self, SHAPES};
use oracle::numbers::{geometry_pool, number_pool, rule_of, List, Numbers, Points, Size, DISTANT};
use oracle::random::Random;
use std::fmt::Write;

const SEED: u64 = 20261116;
const CASES: usize = 144;
/// The largest case.
const MOST_CELLS: u32 = 24;
const MOST_NUMBERS: usize = 256;

fn bits(x: f64) -> u64 {
    if x.is_nan() {
        0x7ff8_0000_0000_0000
    } else {
        x.to_bits()
    }
}

fn line(words: impl Iterator<Item = u64>) -> String {
    let mut text = String::new();
    for word in words {
        write!(text, "{word:016x} ").unwrap();
    }
    if text.pop().is_some() {
        text.push('\n');
    }
    text
}

fn floats(list: &[f64]) -> String {
    line(list.iter().map(|x| bits(*x)))
}

fn packed(list: &[u32]) -> String {
    line(list.chunks(4).map(|four| {
        (0..4).fold(0, |word, i| {
            word << 16 | four.get(i).copied().unwrap_or(0) as u64
        })
    }))
}

fn digits(list: [u32; 16]) -> String {
    line([list.iter().fold(0, |word, digit| word << 4 | *digit as u64)].into_iter())
}

fn form(term: Option<Term>) -> [u32; 2] {
    term.map_or([0, 0], |t| [t.factor.is_some() as u32, t.kind])
}

fn factor(term: Option<Term>) -> f64 {
    term.and_then(|t| t.factor).unwrap_or(0.0)
}

/// Test points and trial points of a distant pair, points of a touching one.
fn point_counts(numbers: &Numbers) -> [usize; 3] {
    [(DISTANT, false), (DISTANT, true), (0, false)]
        .map(|(rule, trial)| numbers.points_of(rule, trial))
}

fn lengths(job: &Job, numbers: &Numbers, answer: Option<&Answer>) -> Vec<u32> {
    let c = job.mesh.cells as usize;
    let (m, n) = (job.test.dim(TRIANGLE), job.trial.dim(TRIANGLE));
    let (k, d) = (numbers.width, numbers.rows);
    let [t, r, p] = point_counts(numbers);
    let written = answer.map_or([0; 4], |a| {
        let owners = [a.test.owners.len(), a.trial.owners.len()];
        [owners[0], owners[1], a.matrix.len(), a.entries.values.len()]
    });
    let planning = [
        3 * c,
        c * m,
        c * n,
        c,
        3 * c * m,
        3 * c * n,
        3 * c * c,
        8 * c * c,
    ];
    let distant = [t, r, d * t * m, d * r * n, k * t * r, 10 * t, 10 * r];
    let touching = [p, d * p * m, d * p * n, k * p, 10 * p];
    let lists = planning
        .iter()
        .chain(&written)
        .chain(&distant)
        .chain(&touching);
    lists.map(|n| *n as u32).collect()
}

fn question(job: &Job, numbers: &Numbers, answer: Option<&Answer>) -> String {
    let refusal = if answer.is_some() { 0 } else { 7 };
    let mesh = &job.mesh;
    let (first, second) = (Some(job.integrand.first), job.integrand.second);
    let ([a, b, c], [d, e, f]) = (job.test.triangle, job.trial.triangle);
    let ([g, h], [i, j]) = (form(first), form(second));
    let terms = 1 + second.is_some() as u32;
    let [t, r, p] = point_counts(numbers).map(|n| n as u32);
    [
        packed(&[mesh.cells, mesh.vertices, mesh.edges, job.batch]),
        digits([a, b, c, d, e, f, terms, g, h, i, j, t, r, p, refusal, 0]),
        floats(&[factor(first), factor(second)]),
        packed(&lengths(job, numbers, answer)),
        packed(&mesh.cell_vertices),
        packed(&mesh.cell_edges),
    ]
    .concat()
}

/// Where the lists lent to the add of a record begin.
fn lent(job: &Job, numbers: &Numbers, record: [u32; 3]) -> [u32; 8] {
    let rule = rule_of(&job.mesh.kinds, record);
    let [_, t, r] = record.map(|n| n as usize);
    let (tp, rp) = (
        numbers.points_of(rule, false),
        numbers.points_of(rule, true),
    );
    let (m, n) = (job.test.dim(TRIANGLE), job.trial.dim(TRIANGLE));
    let trial_weights = match rule {
        DISTANT => numbers.list_place(List::TrialWeights, rule, rp),
        _ => 0,
    };
    [
        numbers.list_place(List::TestWeights, rule, tp),
        trial_weights,
        numbers.list_place(List::TestTable, rule, numbers.rows * tp * m),
        numbers.list_place(List::TrialTable, rule, numbers.rows * rp * n),
        numbers.kernel_place(rule, t, r),
        10 * numbers.geometry_place(rule, false, t),
        10 * numbers.geometry_place(rule, true, r),
        0,
    ]
    .map(|n| n as u32)
}

fn reply(job: &Job, numbers: &Numbers, answer: &Answer) -> String {
    let (test, trial) = (&answer.test, &answer.trial);
    let touching = answer.work.len() as u32 - answer.distant;
    let places = answer
        .work
        .iter()
        .flat_map(|record| lent(job, numbers, *record))
        .collect::<Vec<_>>();
    [
        packed(&[test.count, trial.count, answer.distant, touching]),
        packed(&test.dofs),
        packed(&trial.dofs),
        packed(&test.colours),
        packed(&trial.colours),
        packed(&test.owners),
        packed(&trial.owners),
        packed(answer.work.as_flattened()),
        packed(&places),
        packed(&answer.entries.rows),
        packed(&answer.entries.columns),
        floats(&answer.entries.values),
        floats(&answer.matrix),
    ]
    .concat()
}

fn small(job: &Job) -> bool {
    job.mesh.cells <= MOST_CELLS && job.mesh.vertices <= 64 && job.mesh.edges <= 64
}

fn small_answer(answer: &Answer) -> bool {
    answer.matrix.len() <= MOST_NUMBERS && answer.entries.values.len() <= 3 * MOST_NUMBERS
}

fn points(random: &mut Random) -> Points {
    let test = random.from_to(1, 3);
    let trial = if random.once_in(3) {
        random.from_to(1, 3)
    } else {
        test
    };
    Points {
        test: [test; 2],
        trial: [trial; 2],
        ..Points::of(random.from_to(1, 3), 0)
    }
}

/// The next case: a small job of the next shape, and what the Rust answers.
fn case(random: &mut Random, i: usize, geometry: &[f64], pool: &[f64]) -> String {
    loop {
        let (job, _) = meshes::job(random, SHAPES[i % SHAPES.len()], false);
        let numbers = Numbers::of_pools(&job, points(random), geometry, pool);
        if !small(&job) {
            continue;
        }
        match oracle::rust::answer(&job, &numbers) {
            Err(_) => return question(&job, &numbers, None),
            Ok(answer) if small_answer(&answer) => {
                return question(&job, &numbers, Some(&answer)) + &reply(&job, &numbers, &answer)
            }
            Ok(_) => continue,
        }
    }
}

/// Writes the file to standard output. Each run writes the same bytes.
pub fn run() {
    std::panic::set_hook(Box::new(|_| {}));
    let mut random = Random::new(SEED);
    let geometry = geometry_pool(&mut random, Size::Ordinary, 40);
    let pool = number_pool(&mut random, Size::Ordinary, 512);
    print!("{}", line([CASES as u64].into_iter()));
    print!("{}{}", floats(&geometry), floats(&pool));
    for i in 0..CASES {
        print!("{}", case(&mut random, i, &geometry, &pool));
    }
}
