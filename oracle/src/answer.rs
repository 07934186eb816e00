//! What an assembler answers to a job, and how two answers are compared.
use crate::job::Job;
use crate::numbers::Numbers;

/// The lists of one element.
#[derive(Clone, Debug, Default, PartialEq)]
pub struct Space {
    pub dofs: Vec<u32>,
    pub count: u32,
    /// Dimension, entity, place on it, for each DOF.
    pub owners: Vec<u32>,
    pub colours: Vec<u32>,
}

/// Rows, columns and values of the touching part, in order.
#[derive(Clone, Debug, Default)]
pub struct Entries {
    pub rows: Vec<u32>,
    pub columns: Vec<u32>,
    pub values: Vec<f64>,
}

#[derive(Clone, Debug, Default)]
pub struct Answer {
    pub test: Space,
    pub trial: Space,
    /// Pattern, test cell, trial cell, for each pair.
    pub work: Vec<[u32; 3]>,
    pub distant: u32,
    pub entries: Entries,
    pub matrix: Vec<f64>,
}

/// A refusal's number.
#[derive(Clone, Copy, Debug, PartialEq)]
pub struct Refused(pub u32);

pub trait Assembler {
    /// Plans, and assembles the dense matrix, from `numbers.start` on, and the touching entries.
    fn answer(&self, job: &Job, numbers: &Numbers) -> Result<Answer, Refused>;
}

/// The same bits, any NaN counting as any other.
pub fn same(x: f64, y: f64) -> bool {
    x.to_bits() == y.to_bits() || x.is_nan() && y.is_nan()
}

fn list_difference<T: PartialEq + std::fmt::Debug>(what: &str, x: &[T], y: &[T]) -> Option<String> {
    if x.len() != y.len() {
        return Some(format!("{what}: {} and {} long", x.len(), y.len()));
    }
    let i = x.iter().zip(y).position(|(a, b)| a != b)?;
    Some(format!("{what}: at {i} {:?} and {:?}", x[i], y[i]))
}

fn float_difference(what: &str, x: &[f64], y: &[f64]) -> Option<String> {
    if x.len() != y.len() {
        return Some(format!("{what}: {} and {} long", x.len(), y.len()));
    }
    let i = x.iter().zip(y).position(|(a, b)| !same(*a, *b))?;
    let (a, b) = (x[i], y[i]);
    Some(format!(
        "{what}: at {i} {a:e} ({:016x}) and {b:e} ({:016x})",
        a.to_bits(),
        b.to_bits()
    ))
}

fn space_difference(what: &str, x: &Space, y: &Space) -> Option<String> {
    list_difference(&format!("{what} DOFs"), &x.dofs, &y.dofs)
        .or_else(|| list_difference(&format!("{what} count"), &[x.count], &[y.count]))
        .or_else(|| list_difference(&format!("{what} owners"), &x.owners, &y.owners))
        .or_else(|| list_difference(&format!("{what} colours"), &x.colours, &y.colours))
}

/// The first place where two answers part.
pub fn difference(x: &Answer, y: &Answer) -> Option<String> {
    space_difference("test", &x.test, &y.test)
        .or_else(|| space_difference("trial", &x.trial, &y.trial))
        .or_else(|| list_difference("pairs", &x.work, &y.work))
        .or_else(|| list_difference("distant pairs", &[x.distant], &[y.distant]))
        .or_else(|| list_difference("entry rows", &x.entries.rows, &y.entries.rows))
        .or_else(|| list_difference("entry columns", &x.entries.columns, &y.entries.columns))
        .or_else(|| float_difference("entry values", &x.entries.values, &y.entries.values))
        .or_else(|| float_difference("matrix", &x.matrix, &y.matrix))
}
