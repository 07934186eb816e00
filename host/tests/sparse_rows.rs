//! Sparse rows of entries: of whole runs, of random lists and of hostile ones, held to sums by row and column. A refused call writes nothing.
mod support;

use std::collections::BTreeMap;

use seivalto::*;
use support::*;

/// Row, column and value.
type Entry = (u32, u32, f64);

/// What the lists hold before a call.
const OLD_START: u64 = 0x5555_5555_5555_5555;
const OLD_VALUE: f64 = -3.25;

/// What a call is given, which a test changes.
#[derive(Clone)]
struct Case {
    rows: Vec<u32>,
    columns: Vec<u32>,
    values: Vec<f64>,
    row_count: u32,
    column_count: u32,
    row_starts: Vec<u64>,
    kept_columns: Vec<u32>,
    kept_values: Vec<f64>,
}

impl Case {
    /// With room for as many values as there are entries.
    fn new(entries: &[Entry], row_count: u32, column_count: u32) -> Case {
        Case {
            rows: entries.iter().map(|e| e.0).collect(),
            columns: entries.iter().map(|e| e.1).collect(),
            values: entries.iter().map(|e| e.2).collect(),
            row_count,
            column_count,
            row_starts: vec![OLD_START; row_count as usize + 1],
            kept_columns: vec![BLANK; entries.len()],
            kept_values: vec![OLD_VALUE; entries.len()],
        }
    }

    /// With room for so many values.
    fn with_room(mut self, room: usize) -> Case {
        self.kept_columns.resize(room, BLANK);
        self.kept_values.resize(room, OLD_VALUE);
        self
    }

    fn entries(&self) -> Entries<'_> {
        Entries {
            rows: &self.rows,
            columns: &self.columns,
            values: &self.values,
        }
    }

    fn call(&mut self) -> Result<u64, Refusal> {
        let entries = Entries {
            rows: &self.rows,
            columns: &self.columns,
            values: &self.values,
        };
        let lists = SparseLists {
            row_starts: &mut self.row_starts,
            columns: &mut self.kept_columns,
            values: &mut self.kept_values,
        };
        sparse_rows(entries, self.row_count, self.column_count, lists)
    }

    /// The sum at each row and column, in run order, starting from the first.
    fn sums(&self) -> BTreeMap<(u32, u32), f64> {
        let mut sums = BTreeMap::new();
        for i in 0..self.rows.len() {
            sums.entry((self.rows[i], self.columns[i]))
                .and_modify(|sum| *sum += self.values[i])
                .or_insert(self.values[i]);
        }
        sums
    }

    /// The sums, or the refusal that the call has to answer.
    fn expected(&self) -> Result<BTreeMap<(u32, u32), f64>, Refusal> {
        let n = self.rows.len();
        if self.columns.len() != n
            || self.values.len() != n
            || self.rows.iter().any(|r| *r >= self.row_count)
            || self.columns.iter().any(|c| *c >= self.column_count)
        {
            return Err(Refusal::Entries);
        }
        let sums = self.sums();
        if self.row_starts.len() < self.row_count as usize + 1
            || self.kept_columns.len() < sums.len()
            || self.kept_values.len() < sums.len()
        {
            return Err(Refusal::SparseLength);
        }
        Ok(sums)
    }

    /// Makes the call, and holds its answer and every number of the three lists to what is expected. Answers how many values are kept.
    fn holds(&mut self, note: &str) -> Result<usize, Refusal> {
        let sums = match self.expected() {
            Ok(sums) => sums,
            Err(refusal) => {
                self.refused(refusal, note);
                return Err(refusal);
            }
        };
        let mut after = self.clone();
        after.row_starts[..=self.row_count as usize].fill(0);
        for (p, ((row, column), sum)) in sums.iter().enumerate() {
            after.row_starts[*row as usize + 1] += 1;
            after.kept_columns[p] = *column;
            after.kept_values[p] = *sum;
        }
        for row in 0..self.row_count as usize {
            after.row_starts[row + 1] += after.row_starts[row];
        }
        assert_eq!(self.call(), Ok(sums.len() as u64), "{note}");
        assert!(self.row_starts == after.row_starts, "{note}: row starts");
        assert!(self.kept_columns == after.kept_columns, "{note}: columns");
        let mut values = self.kept_values.iter().zip(&after.kept_values);
        assert!(values.all(|(x, y)| alike(*x, *y)), "{note}: values");
        Ok(sums.len())
    }

    /// The call gets that refusal and writes nothing.
    fn refused(&mut self, refusal: Refusal, note: &str) {
        let before = self.clone();
        assert_eq!(self.call(), Err(refusal), "{note}");
        assert!(
            self.row_starts == before.row_starts
                && self.kept_columns == before.kept_columns
                && bits(&self.kept_values) == bits(&before.kept_values),
            "{note}: something was written"
        );
    }
}

/// Equal by their bits, or both NaN.
fn alike(x: f64, y: f64) -> bool {
    x.to_bits() == y.to_bits() || (x.is_nan() && y.is_nan())
}

/// A good case, which is then given lists just as long as needed, and each of them one too short.
fn gathers(case: &Case, note: &str) {
    let kept = case.clone().holds(note).expect("good entries");
    let exact = case.clone().with_room(kept);
    exact.clone().holds(note).expect("enough room");
    let mut short = exact.clone();
    short.row_starts.pop();
    short.refused(Refusal::SparseLength, note);
    if kept > 0 {
        let mut short = exact.clone();
        short.kept_columns.pop();
        short.refused(Refusal::SparseLength, note);
        let mut short = exact;
        short.kept_values.pop();
        short.refused(Refusal::SparseLength, note);
    }
}

/// Numbers that are as good as random.
struct Random(u64);

impl Random {
    fn next(&mut self) -> u32 {
        self.0 = self
            .0
            .wrapping_mul(6_364_136_223_846_793_005)
            .wrapping_add(1_442_695_040_888_963_407);
        (self.0 >> 32) as u32
    }

    /// Below n, or 0.
    fn below(&mut self, n: u32) -> u32 {
        ((u64::from(self.next()) * u64::from(n)) >> 32) as u32
    }

    /// From −1 to 1.
    fn value(&mut self) -> f64 {
        f64::from(self.next()) / f64::from(1u32 << 31) - 1.0
    }

    /// Such a number, or a zero, or one with which a sum rounds, overflows or is NaN.
    fn wild(&mut self) -> f64 {
        match self.below(12) {
            0 | 1 => -0.0,
            2 => 0.0,
            3 => f64::INFINITY,
            4 => f64::NEG_INFINITY,
            5 => f64::NAN,
            6 => f64::MAX,
            7 => f64::from_bits(1),
            8 => 9_007_199_254_740_992.0,
            _ => self.value(),
        }
    }
}

// ---- whole entries runs

/// Planning's numbers, and the lists of a finished entries run with other lent numbers at each pair.
fn entries_run(mesh: &OwnedMesh, test: Element, trial: Element) -> (Numbers, Case) {
    let (n, lists) = planned(mesh, test, trial, 2, SINGLE_LAYER);
    let mut case = Case::new(&vec![(0, 0, 0.0); n.entry_count()], n.rows, n.columns);
    let mut run = n.begin_entries();
    while let (_, Ok(record)) = run.look(lists.plan()) {
        let dims = (
            test.dim(mesh.kinds[record.test_cell as usize]),
            trial.dim(mesh.kinds[record.trial_cell as usize]),
        );
        let touching = OwnedTouching::new(3, dims.0, dims.1, 10 * u64::from(run.position));
        let entry_lists = EntryLists {
            rows: &mut case.rows,
            columns: &mut case.columns,
            values: &mut case.values,
        };
        let (next, answer) = run.add_entries(lists.plan(), touching.lent(), entry_lists);
        assert_eq!(answer, Ok(()));
        run = next;
    }
    let end = Err(Refusal::NoRecordLeft);
    assert_eq!(run.look(lists.plan()).1, end);
    (n, case)
}

const ELEMENTS: [Element; 4] = [
    VERTEX_ELEMENT,
    Element { a: 1, b: 1, c: 0 },
    Element { a: 0, b: 1, c: 1 },
    Element { a: 0, b: 0, c: 3 },
];

#[test]
fn whole_entries_runs() {
    for mesh in [
        mesh_m(),
        octahedron(),
        square(4),
        edge_shared_and_two_more(),
    ] {
        for test in ELEMENTS {
            for trial in ELEMENTS {
                let note = format!("{} cells, {test:?}, {trial:?}", mesh.cells);
                let (numbers, mut case) = entries_run(&mesh, test, trial);
                gathers(&case, &note);
                let kept = case.holds(&note).expect("good entries");
                let gathered = numbers.sparse_rows(case.entries()).expect("good entries");
                assert_eq!(gathered.row_starts, case.row_starts, "{note}");
                assert_eq!(gathered.columns, case.kept_columns[..kept], "{note}");
                let values = bits(&case.kept_values[..kept]);
                assert_eq!(bits(&gathered.values), values, "{note}");
            }
        }
    }
}

/// With the last entry first the sums have other bits, so the comparison sees the order.
#[test]
fn run_order_counts() {
    let (_, case) = entries_run(&octahedron(), VERTEX_ELEMENT, VERTEX_ELEMENT);
    let mut turned = case.clone();
    turned.rows.reverse();
    turned.columns.reverse();
    turned.values.reverse();
    assert!(case.sums().keys().eq(turned.sums().keys()));
    assert!(!case.sums().values().eq(turned.sums().values()));
    gathers(&turned, "the last entry first");
}

#[test]
fn new_lists_are_refused_for_other_numbers() {
    let (numbers, case) = entries_run(&mesh_m(), VERTEX_ELEMENT, VERTEX_ELEMENT);
    for (rows, columns) in [(6, 7), (7, 6), (0, 7), (7, 0)] {
        let other = Numbers {
            rows,
            columns,
            ..numbers
        };
        let answer = other.sparse_rows(case.entries());
        assert_eq!(answer, Err(Refusal::Entries));
    }
}

// ---- random lists

#[test]
fn random_lists() {
    let mut random = Random(1);
    let mut answers = BTreeMap::new();
    for k in 0..60_000 {
        let (rows, columns) = (random.below(7), random.below(7));
        let count = match (rows, columns) {
            (0, _) | (_, 0) => random.below(20) / 19,
            _ => random.below(25),
        };
        let entries: Vec<Entry> = (0..count)
            .map(|_| (random.below(rows), random.below(columns), random.wild()))
            .collect();
        let mut case = Case::new(&entries, rows, columns);
        let kept = case.sums().len();
        case = case.with_room(kept + random.below(4) as usize);
        (0..random.below(4)).for_each(|_| case.row_starts.push(OLD_START));
        (0..random.below(4)).for_each(|_| case.kept_columns.push(BLANK));
        (0..random.below(3)).for_each(|_| spoil(&mut case, &mut random));
        let answer = case.holds(&format!("list {k}"));
        *answers
            .entry(answer.err().map(Refusal::number))
            .or_insert(0) += 1;
    }
    assert!(answers.keys().eq(&[None, Some(24), Some(25)]));
    assert!(answers.values().all(|times| *times > 2_000), "{answers:?}");
}

/// An entry list longer or shorter, an output list shorter, or another row or column.
fn spoil(case: &mut Case, random: &mut Random) {
    let longer = random.below(2) == 0;
    let at = random.below(25) as usize;
    let number = random.below(8);
    match random.below(8) {
        0 => resize(&mut case.rows, longer, 0),
        1 => resize(&mut case.columns, longer, 0),
        2 => resize(&mut case.values, longer, 0.0),
        3 => case.row_starts.truncate(number as usize),
        4 => case.kept_columns.truncate(at),
        5 => case.kept_values.truncate(at),
        6 => case
            .rows
            .iter_mut()
            .skip(at)
            .take(1)
            .for_each(|r| *r = number),
        _ => case
            .columns
            .iter_mut()
            .skip(at)
            .take(1)
            .for_each(|c| *c = number),
    }
}

fn resize<T: Copy>(list: &mut Vec<T>, longer: bool, last: T) {
    if longer {
        list.push(last);
    } else {
        list.pop();
    }
}

// ---- refusals

/// Eight entries at six places of a 4 by 5 matrix, and lists just as long as needed.
fn good() -> Case {
    let entries = [
        (3, 4, 1.5),
        (0, 0, -0.0),
        (1, 2, 0.1),
        (3, 0, 2.0),
        (1, 2, 0.7),
        (0, 4, -1.0),
        (3, 4, -1.5),
        (1, 1, 8.0),
    ];
    Case::new(&entries, 4, 5).with_room(6)
}

fn refused(refusal: Refusal, changes: &[fn(&mut Case)]) {
    for (k, change) in changes.iter().enumerate() {
        let mut case = good();
        change(&mut case);
        case.refused(refusal, &format!("change {k}"));
    }
}

#[test]
fn the_good_case_is_accepted() {
    assert_eq!(good().holds("good"), Ok(6));
}

#[test]
fn refusal_24() {
    refused(
        Refusal::SparseLength,
        &[
            |c| c.row_starts.truncate(4),
            |c| c.row_starts.clear(),
            |c| c.kept_columns.truncate(5),
            |c| c.kept_columns.clear(),
            |c| c.kept_values.truncate(5),
            |c| c.kept_values.clear(),
            |c| {
                c.kept_columns.truncate(5);
                c.kept_values.resize(100, OLD_VALUE);
            },
            |c| c.row_count = 5,
            |c| c.row_count = u32::MAX,
            |c| {
                c.row_count = u32::MAX;
                c.rows[0] = u32::MAX - 1;
                c.column_count = u32::MAX;
                c.columns[0] = u32::MAX - 1;
            },
        ],
    );
}

#[test]
fn refusal_25() {
    refused(
        Refusal::Entries,
        &[
            |c| c.rows.push(0),
            |c| c.columns.push(0),
            |c| c.values.push(0.0),
            |c| c.rows.truncate(7),
            |c| c.columns.truncate(7),
            |c| c.values.truncate(7),
            |c| c.rows.clear(),
            |c| c.columns.clear(),
            |c| c.values.clear(),
            |c| {
                c.rows.clear();
                c.columns.clear();
            },
            |c| {
                c.rows.clear();
                c.values.clear();
            },
            |c| {
                c.columns.clear();
                c.values.clear();
            },
            |c| c.rows[0] = 4,
            |c| c.rows[7] = 4,
            |c| c.rows[7] = u32::MAX,
            |c| c.columns[0] = 5,
            |c| c.columns[7] = 5,
            |c| c.columns[7] = u32::MAX,
            |c| c.row_count = 3,
            |c| c.column_count = 4,
            |c| c.row_count = 0,
            |c| c.column_count = 0,
            |c| {
                c.row_count = u32::MAX;
                c.rows[3] = u32::MAX;
            },
            |c| {
                c.column_count = u32::MAX;
                c.columns[3] = u32::MAX;
            },
        ],
    );
}

#[test]
fn refusal_25_comes_first() {
    let short: [fn(&mut Case); 4] = [
        |c| c.row_starts.clear(),
        |c| c.kept_columns.truncate(5),
        |c| c.kept_values.clear(),
        |c| {
            c.row_starts.clear();
            c.kept_columns.clear();
            c.kept_values.clear();
        },
    ];
    let wrong: [fn(&mut Case); 5] = [
        |c| c.rows.push(0),
        |c| c.columns.truncate(7),
        |c| c.values.push(0.0),
        |c| c.rows[7] = 4,
        |c| c.columns[7] = 5,
    ];
    for make_short in short {
        for make_wrong in wrong {
            let mut case = good();
            make_short(&mut case);
            case.refused(Refusal::SparseLength, "short");
            make_wrong(&mut case);
            case.refused(Refusal::Entries, "short and wrong");
        }
    }
}

// ---- sizes

#[test]
fn no_entries() {
    for rows in [0, 1, 3] {
        for columns in [0, 1, 5, u32::MAX] {
            let note = format!("{rows} by {columns}");
            let mut case = Case::new(&[], rows, columns);
            gathers(&case, &note);
            case.row_starts.push(OLD_START);
            assert_eq!(case.with_room(2).holds(&note), Ok(0));
        }
    }
}

#[test]
fn few_entries_far_apart() {
    let (rows, last) = (300_000, u32::MAX - 1);
    let corners = [
        (rows - 1, last, 1.0),
        (0, 0, 2.0),
        (rows - 1, 0, 3.0),
        (0, last, 4.0),
        (rows / 2, last / 2, 5.0),
        (rows - 1, last, 6.0),
        (rows - 2, last, 7.0),
        (0, 0, 8.0),
        (rows - 1, last - 1, 9.0),
    ];
    gathers(&Case::new(&corners, rows, u32::MAX), "corners");
    let column = [(rows - 1, 0, 1.0), (0, 0, 2.0), (9, 0, 3.0), (0, 0, 4.0)];
    gathers(&Case::new(&column, rows, 1), "one column");
    let row = [(0, last, 1.0), (0, 7, 2.0), (0, last, 3.0), (0, 0, 4.0)];
    gathers(&Case::new(&row, 1, u32::MAX), "one row");
}

#[test]
fn one_place() {
    let mut random = Random(2);
    for (row, column) in [(0, 0), (6, 8), (3, 0)] {
        let entries: Vec<Entry> = (0..20_000).map(|_| (row, column, random.value())).collect();
        gathers(&Case::new(&entries, 7, 9), "one place");
    }
}

/// The library goes through the places of the matrix, row by row, in bands of so many.
const BAND: u32 = 1_048_576;

#[test]
fn each_entry_in_another_band() {
    let mut random = Random(3);
    let (rows, columns) = (1_000, 2 * BAND + 1);
    let mut entries: Vec<Entry> = (0..rows)
        .map(|row| (row, random.below(BAND), random.value()))
        .collect();
    gathers(&Case::new(&entries, rows, columns), "rising");
    entries.reverse();
    gathers(&Case::new(&entries, rows, columns), "falling");
    for i in 0..entries.len() {
        let j = random.below(rows) as usize;
        entries.swap(i, j);
    }
    entries.extend(entries.clone());
    gathers(&Case::new(&entries, rows, columns), "mixed, each twice");
}

#[test]
fn entries_at_the_ends_of_bands() {
    let mut random = Random(4);
    for columns in [BAND - 1, BAND, BAND + 1, 2 * BAND, 3] {
        let ends = [0, 1, columns / 2, columns - 2, columns - 1];
        for rows in [1, 2, 5, 40] {
            let entries: Vec<Entry> = (0..3 * rows)
                .map(|_| {
                    let column = ends[random.below(5) as usize];
                    (random.below(rows), column, random.value())
                })
                .collect();
            let note = format!("{rows} by {columns}");
            gathers(&Case::new(&entries, rows, columns), &note);
        }
    }
}

#[test]
fn every_place_of_a_band() {
    let mut random = Random(5);
    let entries: Vec<Entry> = (0..BAND + 70)
        .rev()
        .map(|column| (0, column, random.value()))
        .collect();
    gathers(&Case::new(&entries, 1, BAND + 70), "the last column first");
}

// ---- bits

#[test]
fn a_value_that_is_alone_keeps_its_bits() {
    let values = [
        0.0,
        -0.0,
        1.5,
        f64::from_bits(1),
        -f64::MIN_POSITIVE,
        f64::MAX,
        f64::INFINITY,
        f64::NEG_INFINITY,
        f64::from_bits(0x7ff8_0000_0000_1234),
        f64::from_bits(0xfff8_0000_0000_5678),
    ];
    let entries: Vec<Entry> = (0..).zip(values).map(|(k, x)| (0, k, x)).collect();
    let mut case = Case::new(&entries, 1, 10);
    assert_eq!(case.call(), Ok(10));
    assert_eq!(bits(&case.kept_values), bits(&values));
}

#[test]
fn a_signalling_nan_comes_out_quiet() {
    let signalling = f64::from_bits(0x7ff0_0000_0000_1234);
    let mut case = Case::new(&[(0, 0, signalling)], 1, 1);
    assert_eq!(case.call(), Ok(1));
    assert_eq!(bits(&case.kept_values), [0x7ff8_0000_0000_1234]);
}

// ---- the stack

#[test]
fn many_entries_on_a_small_stack() {
    on_a_stack_of(280, || {
        let mut random = Random(6);
        let size = 6_144;
        let spread: Vec<Entry> = (0..300_000)
            .map(|_| (random.below(size), random.below(size), random.value()))
            .collect();
        gathers(&Case::new(&spread, size, size), "spread");
        let near: Vec<Entry> = (0..300_000)
            .map(|_| {
                let row = random.below(size);
                (row, (row + random.below(40)) % size, random.value())
            })
            .collect();
        gathers(&Case::new(&near, size, size), "near the diagonal");
    });
}
