//! The Rust as oracle: the published assemblers of bempp-rs, built over stand-in crates and fed with lent numbers, beside any other assembler.
pub mod meshes;
pub mod model;
#[cfg(feature = "ours")]
pub mod ours;
pub mod quads;

pub use common::{answer, clock, job, numbers, random};
#[cfg(rust_at_hand)]
pub use published::timing;

/// The published Rust: as it is where all cells are of one kind, corrected where they are of two.
#[cfg(rust_at_hand)]
pub mod rust {
    use common::answer::Answer;
    use common::job::Job;
    use common::numbers::Numbers;

    /// What it answers, or what it says when it panics.
    pub fn answer(job: &Job, numbers: &Numbers) -> Result<Answer, String> {
        if job.mesh.is_mixed() {
            corrected::run::answer(job, numbers)
        } else {
            published::run::answer(job, numbers)
        }
    }
}
