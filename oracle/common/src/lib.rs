//! What every assembler is asked and what it answers: jobs, lent numbers, answers.
pub mod answer;
pub mod clock;
pub mod job;
pub mod numbers;
pub mod random;
