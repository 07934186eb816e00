//! Compares assemblers on random meshes.
//!
//!     oracle compare [SEED [COUNT]]   thousands of random jobs of triangles, the published Rust beside ours and beside the paper as plain Rust
//!     oracle quads [SEED [COUNT]]     the same with quads, alone and beside triangles; beside triangles the Rust is corrected
//!     oracle large [SEED [COUNT]]     meshes of up to 2,048 cells
//!     oracle large-quads [SEED [COUNT]]  the same with quads
//!     oracle refusals [SEED [COUNT]]  jobs with faults, ours beside the paper as plain Rust
//!     oracle differences              the smallest inputs on which the Rust and the paper part, and what each gives, as `oracle/differences.txt` has it
//!     oracle batch-0                  one more: the Rust does not come back from batch size 0, and takes all memory that it can get
//!     oracle record                   a sample of the published Rust's answers, to standard output
mod compare;
#[cfg(rust_at_hand)]
mod differences;
#[cfg(rust_at_hand)]
mod record;

fn number(argument: Option<&String>, default: u64) -> u64 {
    argument.map_or(default, |text| text.parse().expect("a number"))
}

fn main() -> std::process::ExitCode {
    let arguments = std::env::args().skip(1).collect::<Vec<_>>();
    let command = arguments.first().map_or("compare", |text| text.as_str());
    let (seed, count) = (number(arguments.get(1), 1), |default| {
        number(arguments.get(2), default)
    });
    let agree = match command {
        "compare" => compare::run(seed, count(3000)),
        "quads" => compare::run_quads(seed, count(3000)),
        "large" => compare::run_large(seed, count(9)),
        "large-quads" => compare::run_large_quads(seed, count(8)),
        #[cfg(feature = "ours")]
        "refusals" => compare::run_refusals(seed, count(20000)),
        #[cfg(rust_at_hand)]
        "differences" => {
            differences::run();
            true
        }
        #[cfg(rust_at_hand)]
        "batch-0" => {
            differences::batch_0();
            true
        }
        #[cfg(rust_at_hand)]
        "record" => {
            record::run();
            true
        }
        _ => panic!("no command {command}"),
    };
    if agree {
        std::process::ExitCode::SUCCESS
    } else {
        std::process::ExitCode::FAILURE
    }
}
