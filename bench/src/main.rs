//! Times planning and whole assemblies, the published Rust beside ours, on closed surfaces: thread time, the best of several runs, in one run.
//!
//!     bench [POINTS [TOUCHING]]    distant points a side (6) and points of a touching pair (128)
use oracle::clock::thread_time;
use oracle::job::{Element, Elements, Integrand, Job};
use oracle::meshes::{plain_mesh, sphere};
use oracle::numbers::{Numbers, Points, Size};
use oracle::ours::{assemble, Planner};
use oracle::random::Random;
use oracle::timing::{assembly_time, plan_times, Copying, PlanTimes};
use std::time::{Duration, Instant};

const ELEMENTS: [Element; 3] = [[1, 0, 0], [0, 0, 1], [1, 1, 0]];
/// Octahedra refined so often have 128, 512 and 2,048 cells.
const REFINEMENTS: [usize; 3] = [2, 3, 4];

fn ms(time: Duration) -> f64 {
    1e3 * time.as_secs_f64()
}

fn timed<T>(f: impl FnOnce() -> T) -> Duration {
    let start = thread_time();
    std::hint::black_box(f());
    thread_time() - start
}

/// The shortest of several runs: as many as fit in a second, at least 2 and at most 20.
fn best<T>(mut run: impl FnMut() -> T, time: impl Fn(&T) -> Duration) -> T {
    let start = Instant::now();
    let mut best = run();
    for i in 1..20 {
        if i > 1 && start.elapsed() > Duration::from_secs(1) {
            break;
        }
        let next = run();
        if time(&next) < time(&best) {
            best = next;
        }
    }
    best
}

fn job(refinements: usize, element: Element, kind: u32) -> Job {
    Job {
        mesh: plain_mesh(&sphere(refinements)),
        test: Elements::both(element),
        trial: Elements::both(element),
        batch: 128,
        integrand: Integrand::bare(kind),
    }
}

fn numbers(job: &Job, distant: usize, touching: usize) -> Numbers {
    let points = Points::of(touching, distant);
    Numbers::new(job, points, Size::Ordinary, &mut Random::new(7))
}

fn name([a, b, c]: Element) -> String {
    format!("({a},{b},{c})")
}

/// How many times the time before, the cells having become four times as many.
fn growth(before: f64, time: f64) -> String {
    if before == 0.0 {
        return "".to_string();
    }
    format!("{:.1}", time / before)
}

/// A row of the planning table. Hands back the two times, in ms.
fn print_plan(job: &Job, before: [f64; 2]) -> [f64; 2] {
    let numbers = numbers(job, 1, 1);
    let times = best(|| plan_times(job, &numbers), PlanTimes::sum);
    let mut planner = Planner::new(job);
    let ours = best(|| timed(|| planner.plan().expect("a plan")), |t| *t);
    let (rust, ours) = (ms(times.sum()), ms(ours));
    println!(
        "| {} | {} | {:.3} | {:.3} | {:.3} | {:.3} | {rust:.3} | {ours:.3} | {:.2} | {} | {} |",
        job.mesh.cells,
        name(job.test.triangle),
        ms(times.spaces),
        ms(times.colours),
        ms(times.blocks),
        ms(times.neighbours),
        rust / ours,
        growth(before[0], rust),
        growth(before[1], ours)
    );
    [rust, ours]
}

fn planning() {
    println!("planning, ms\n");
    println!("| C | element | spaces | colours | blocks | neighbours | the Rust | ours | the Rust / ours | the Rust grows | ours grows |");
    println!("|---|---|---|---|---|---|---|---|---|---|---|");
    for element in ELEMENTS {
        let mut before = [0.0; 2];
        for refinements in REFINEMENTS {
            before = print_plan(&job(refinements, element, 0), before);
        }
    }
}

/// Our planning and our whole dense run.
fn our_times(job: &Job, numbers: &Numbers, matrix: &mut [f64]) -> [Duration; 2] {
    let mut planner = Planner::new(job);
    let mut planned = None;
    let planning = timed(|| planned = Some(planner.plan().expect("a plan")));
    let plan = planner.finish(planned.expect("it was made"));
    let adds = timed(|| assemble(&plan, numbers, matrix).expect("a matrix"));
    [planning, adds]
}

/// A row of the assembly table. Hands back the two times, in ms.
fn print_assembly(job: &Job, numbers: &Numbers, before: [f64; 2]) -> [f64; 2] {
    let mut matrix = vec![];
    let rust = ms(best(|| assembly_time(job, numbers, &mut matrix), |t| *t));
    let copying = Copying::new(job, numbers);
    let copying = ms(best(|| copying.time(job, numbers), |t| *t));
    let ours = best(|| our_times(job, numbers, &mut matrix), |[_, adds]| *adds);
    let [planning, adds] = ours.map(ms);
    let whole = planning + adds;
    println!(
        "| {} | {} | {} | {rust:.1} | {copying:.1} | {planning:.1} | {adds:.1} | {:.2} | {:.2} | {} | {} |",
        job.mesh.cells,
        name(job.test.triangle),
        job.integrand.first.kind,
        rust / whole,
        (rust - copying) / whole,
        growth(before[0], rust),
        growth(before[1], whole)
    );
    [rust, whole]
}

fn assembly(distant: usize, touching: usize) {
    println!("\nwhole assemblies, {distant} points a side, {touching} points touching, ms\n");
    println!("| C | element | kind | the Rust | of it copying | our planning | our adds | the Rust / ours | the same without copying | the Rust grows | ours grows |");
    println!("|---|---|---|---|---|---|---|---|---|---|---|");
    for element in ELEMENTS {
        for kind in [0, 3] {
            let mut before = [0.0; 2];
            for refinements in REFINEMENTS {
                let job = job(refinements, element, kind);
                before = print_assembly(&job, &numbers(&job, distant, touching), before);
            }
        }
    }
}

fn main() {
    let arguments = std::env::args()
        .skip(1)
        .map(|text| text.parse().expect("a number"))
        .collect::<Vec<usize>>();
    planning();
    assembly(
        arguments.first().copied().unwrap_or(6),
        arguments.get(1).copied().unwrap_or(128),
    );
}
