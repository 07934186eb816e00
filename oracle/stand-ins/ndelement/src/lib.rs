//! Stand-in for `ndelement`: triangles and quadrilaterals, elements with lent tables, lent rules of distant pairs.

pub mod types {
    /// Kinds of entities. The cells of a mesh here are triangles and quadrilaterals.
    #[derive(Clone, Copy, PartialEq, Eq, Hash, Debug)]
    pub enum ReferenceCellType {
        Point,
        Interval,
        Triangle,
        Quadrilateral,
    }
}

pub mod reference_cell {
    use crate::types::ReferenceCellType;

    /// How many vertices, edges and faces a cell has.
    pub fn entity_counts(cell: ReferenceCellType) -> Vec<usize> {
        let n = edges(cell).len();
        vec![n, n, 1, 0]
    }

    /// The local vertices that the local edges join.
    pub fn edges(cell: ReferenceCellType) -> Vec<Vec<usize>> {
        match cell {
            ReferenceCellType::Triangle => vec![vec![1, 2], vec![0, 2], vec![0, 1]],
            ReferenceCellType::Quadrilateral => {
                vec![vec![0, 1], vec![0, 2], vec![1, 3], vec![2, 3]]
            }
            _ => unimplemented!("a cell of type {cell:?}"),
        }
    }
}

pub mod notes {
    use std::cell::RefCell;
    use std::collections::BTreeSet;

    thread_local! {
        static NOTES: RefCell<BTreeSet<String>> = const { RefCell::new(BTreeSet::new()) };
    }

    /// Notes that a stand-in was asked for what does not fit.
    pub fn note(text: String) {
        NOTES.with_borrow_mut(|notes| notes.insert(text));
    }

    /// What was noted since notes were last taken.
    pub fn take() -> Vec<String> {
        NOTES.take().into_iter().collect()
    }
}

pub mod quadrature {
    use crate::types::ReferenceCellType;
    use std::cell::RefCell;

    /// A rule for one cell.
    #[derive(Clone)]
    pub struct NumericalQuadratureDefinition {
        pub weights: Vec<f64>,
        pub points: Vec<f64>,
    }

    type LentRule = (ReferenceCellType, NumericalQuadratureDefinition);

    thread_local! {
        static LENT: RefCell<(usize, Vec<LentRule>)> = const { RefCell::new((0, vec![])) };
    }

    /// Lends the rules, each for a kind of cell: the first is handed out at the first call, and so on, round and round.
    pub fn lend(rules: Vec<LentRule>) {
        LENT.with_borrow_mut(|lent| *lent = (0, rules))
    }

    pub fn simplex_rule(
        cell: ReferenceCellType,
        _points: usize,
    ) -> Result<NumericalQuadratureDefinition, &'static str> {
        LENT.with_borrow_mut(|(next, rules)| {
            let (lent_for, rule) = &rules[*next % rules.len()];
            assert_eq!(*lent_for, cell);
            *next += 1;
            Ok(rule.clone())
        })
    }
}

pub mod traits {
    use rlst::{DynamicArray, RlstScalar};

    /// An element on one cell.
    pub trait FiniteElement {
        type T: RlstScalar;
        fn dim(&self) -> usize;
        fn entity_dofs(&self, entity_dim: usize, entity_number: usize) -> Option<&[usize]>;
        fn tabulate(
            &self,
            points: &DynamicArray<<Self::T as RlstScalar>::Real, 2>,
            nderivs: usize,
            data: &mut DynamicArray<Self::T, 4>,
        );
        fn tabulate_array_shape(&self, nderivs: usize, npoints: usize) -> [usize; 4];
    }

    /// Hands out the element of a kind of cell.
    pub trait ElementFamily {
        type T: RlstScalar;
        type CellType;
        type FiniteElement: FiniteElement<T = Self::T>;
        fn element(&self, cell_type: Self::CellType) -> Self::FiniteElement;
    }
}

pub mod ciarlet {
    use crate::traits::FiniteElement;
    use crate::types::ReferenceCellType;
    use crate::{notes, reference_cell};
    use rlst::{DynamicArray, RawAccess, RawAccessMut, RlstScalar};
    use std::sync::Arc;

    /// A table for each rule: row i, point p, basis function f at i + rows·(p + points·f).
    pub type Tables<T> = Arc<Vec<Vec<T>>>;

    /// An element of a cell: a DOFs a vertex, b an edge, c inside, numbered in that order.
    pub struct CiarletElement<T: RlstScalar> {
        entity_dofs: [Vec<Vec<usize>>; 3],
        dim: usize,
        tables: Tables<T>,
        fits: fn(usize) -> bool,
    }

    impl<T: RlstScalar> CiarletElement<T> {
        /// `fits` tells of the first number of points whether they are points for this element.
        pub fn new(
            cell: ReferenceCellType,
            dofs: [usize; 3],
            tables: Tables<T>,
            fits: fn(usize) -> bool,
        ) -> Self {
            let counts = reference_cell::entity_counts(cell);
            let mut dim = 0;
            let mut of_entities = |entities: usize, each: usize| {
                (0..entities)
                    .map(|_| {
                        dim += each;
                        (dim - each..dim).collect()
                    })
                    .collect::<Vec<_>>()
            };
            let entity_dofs = [0, 1, 2].map(|dim| of_entities(counts[dim], dofs[dim]));
            Self {
                entity_dofs,
                dim,
                tables,
                fits,
            }
        }
    }

    impl<T: RlstScalar> FiniteElement for CiarletElement<T> {
        type T = T;

        fn dim(&self) -> usize {
            self.dim
        }

        fn entity_dofs(&self, entity_dim: usize, entity_number: usize) -> Option<&[usize]> {
            let dofs = self.entity_dofs.get(entity_dim)?.get(entity_number)?;
            Some(dofs)
        }

        /// The first number of the points says which rule they are of: 2·rule, or 2·rule + 1.
        fn tabulate(
            &self,
            points: &DynamicArray<T::Real, 2>,
            _nderivs: usize,
            data: &mut DynamicArray<T, 4>,
        ) {
            let mark = num_of(points.data()[0]) as usize;
            if !(self.fits)(mark) {
                notes::note("a trial element is tabulated at test points".to_string());
            }
            data.data_mut().copy_from_slice(&self.tables[mark / 2]);
        }

        fn tabulate_array_shape(&self, nderivs: usize, npoints: usize) -> [usize; 4] {
            [(nderivs + 1) * (nderivs + 2) / 2, npoints, self.dim, 1]
        }
    }

    fn num_of<R: RlstScalar>(x: R) -> f64 {
        x.to_f64().unwrap()
    }
}
