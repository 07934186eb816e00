//! Stand-in for `bempp_quadrature`: the rules of touching pairs are lent.

pub mod types {
    /// Which places of two cells meet.
    #[derive(Clone, PartialEq, Eq, Debug)]
    pub struct CellToCellConnectivity {
        pub connectivity_dimension: usize,
        pub local_indices: Vec<(usize, usize)>,
    }

    /// A rule for two cells that touch.
    #[derive(Clone, Default)]
    pub struct TestTrialNumericalQuadratureDefinition {
        pub weights: Vec<f64>,
        pub test_points: Vec<f64>,
        pub trial_points: Vec<f64>,
    }
}

pub mod duffy {
    use crate::types::{CellToCellConnectivity, TestTrialNumericalQuadratureDefinition};
    use std::cell::RefCell;

    #[derive(Default)]
    struct Lent {
        rules: Vec<TestTrialNumericalQuadratureDefinition>,
        asked: Vec<([usize; 2], CellToCellConnectivity)>,
    }

    thread_local! {
        static LENT: RefCell<Lent> = RefCell::new(Lent::default());
    }

    /// Lends the rules: the first is handed out at the first call, and so on, round and round.
    pub fn lend(rules: Vec<TestTrialNumericalQuadratureDefinition>) {
        LENT.with_borrow_mut(|lent| {
            *lent = Lent {
                rules,
                asked: vec![],
            }
        })
    }

    /// What was asked for since rules were lent, in order: the vertices of test and trial cell, and which of them meet.
    pub fn asked() -> Vec<([usize; 2], CellToCellConnectivity)> {
        LENT.with_borrow(|lent| lent.asked.clone())
    }

    type Rule = Result<TestTrialNumericalQuadratureDefinition, &'static str>;

    fn next(corners: [usize; 2], connectivity: &CellToCellConnectivity) -> Rule {
        LENT.with_borrow_mut(|lent| {
            let next = lent.asked.len() % lent.rules.len();
            lent.asked.push((corners, connectivity.clone()));
            Ok(lent.rules[next].clone())
        })
    }

    pub fn triangle_duffy(connectivity: &CellToCellConnectivity, _points: usize) -> Rule {
        next([3, 3], connectivity)
    }

    pub fn triangle_quadrilateral_duffy(
        connectivity: &CellToCellConnectivity,
        _points: usize,
    ) -> Rule {
        next([3, 4], connectivity)
    }

    pub fn quadrilateral_triangle_duffy(
        connectivity: &CellToCellConnectivity,
        _points: usize,
    ) -> Rule {
        next([4, 3], connectivity)
    }

    pub fn quadrilateral_duffy(connectivity: &CellToCellConnectivity, _points: usize) -> Rule {
        next([4, 4], connectivity)
    }
}
