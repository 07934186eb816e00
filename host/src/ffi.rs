//! What include/seivalto.h declares.

#[derive(Clone, Copy, Debug)]
#[repr(C)]
pub struct CTerm {
    pub scaled: u32,
    pub kind: u32,
    pub factor: f64,
}

#[derive(Clone, Copy, Debug)]
#[repr(C)]
pub struct CIntegrand {
    pub terms: u32,
    pub first: CTerm,
    pub second: CTerm,
}

#[derive(Clone, Copy, Debug)]
#[repr(C)]
pub struct CNumbers {
    pub cells: u32,
    pub vertices: u32,
    pub edges: u32,
    pub triangles: u32,
    pub quads: u32,
    pub touching: u32,
    pub distant: u32,
    pub pairs: crate::KindPairs,
    pub rows: u32,
    pub columns: u32,
    pub test: crate::Elements,
    pub trial: crate::Elements,
    pub integrand: CIntegrand,
}

#[repr(C)]
pub struct CPlanned {
    pub refusal: u32,
    pub numbers: CNumbers,
}

#[derive(Clone, Copy, Debug)]
#[repr(C)]
pub struct CRun {
    pub numbers: CNumbers,
    pub entries: u32,
    pub position: u32,
}

#[repr(C)]
pub struct CLooked {
    pub refusal: u32,
    pub run: CRun,
    pub record: crate::Record,
}

#[repr(C)]
pub struct CAdded {
    pub refusal: u32,
    pub run: CRun,
}

#[repr(C)]
pub struct CGathered {
    pub refusal: u32,
    pub kept: u64,
}

extern "C" {
    pub fn seivalto_plan(
        cells: u32,
        vertices: u32,
        edges: u32,
        kinds: *const u8,
        kinds_length: usize,
        cell_vertices: *const u32,
        cell_vertices_length: usize,
        cell_edges: *const u32,
        cell_edges_length: usize,
        test: crate::Elements,
        trial: crate::Elements,
        batch: u32,
        integrand: CIntegrand,
        test_dofs: *mut u32,
        test_dofs_length: usize,
        trial_dofs: *mut u32,
        trial_dofs_length: usize,
        test_colours: *mut u32,
        test_colours_length: usize,
        trial_colours: *mut u32,
        trial_colours_length: usize,
        test_owners: *mut u32,
        test_owners_length: usize,
        trial_owners: *mut u32,
        trial_owners_length: usize,
        work: *mut u32,
        work_length: usize,
    ) -> CPlanned;

    pub fn seivalto_begin(numbers: CNumbers) -> CRun;

    pub fn seivalto_begin_entries(numbers: CNumbers) -> CRun;

    pub fn seivalto_look(
        run: CRun,
        kinds: *const u8,
        kinds_length: usize,
        test_dofs: *const u32,
        test_dofs_length: usize,
        trial_dofs: *const u32,
        trial_dofs_length: usize,
        work: *const u32,
        work_length: usize,
    ) -> CLooked;

    pub fn seivalto_add_distant(
        run: CRun,
        kinds: *const u8,
        kinds_length: usize,
        test_dofs: *const u32,
        test_dofs_length: usize,
        trial_dofs: *const u32,
        trial_dofs_length: usize,
        work: *const u32,
        work_length: usize,
        test_points: usize,
        trial_points: usize,
        test_weights: *const f64,
        test_weights_length: usize,
        trial_weights: *const f64,
        trial_weights_length: usize,
        test_table: *const f64,
        test_table_length: usize,
        trial_table: *const f64,
        trial_table_length: usize,
        kernel: *const f64,
        kernel_length: usize,
        test_geometry: *const f64,
        test_geometry_length: usize,
        trial_geometry: *const f64,
        trial_geometry_length: usize,
        matrix: *mut f64,
        matrix_length: usize,
    ) -> CAdded;

    pub fn seivalto_add_touching(
        run: CRun,
        kinds: *const u8,
        kinds_length: usize,
        test_dofs: *const u32,
        test_dofs_length: usize,
        trial_dofs: *const u32,
        trial_dofs_length: usize,
        work: *const u32,
        work_length: usize,
        points: usize,
        weights: *const f64,
        weights_length: usize,
        test_table: *const f64,
        test_table_length: usize,
        trial_table: *const f64,
        trial_table_length: usize,
        kernel: *const f64,
        kernel_length: usize,
        test_geometry: *const f64,
        test_geometry_length: usize,
        trial_geometry: *const f64,
        trial_geometry_length: usize,
        matrix: *mut f64,
        matrix_length: usize,
    ) -> CAdded;

    pub fn seivalto_add_entries(
        run: CRun,
        kinds: *const u8,
        kinds_length: usize,
        test_dofs: *const u32,
        test_dofs_length: usize,
        trial_dofs: *const u32,
        trial_dofs_length: usize,
        work: *const u32,
        work_length: usize,
        points: usize,
        weights: *const f64,
        weights_length: usize,
        test_table: *const f64,
        test_table_length: usize,
        trial_table: *const f64,
        trial_table_length: usize,
        kernel: *const f64,
        kernel_length: usize,
        test_geometry: *const f64,
        test_geometry_length: usize,
        trial_geometry: *const f64,
        trial_geometry_length: usize,
        rows: *mut u32,
        rows_length: usize,
        columns: *mut u32,
        columns_length: usize,
        values: *mut f64,
        values_length: usize,
    ) -> CAdded;

    pub fn seivalto_sparse_rows(
        rows: *const u32,
        rows_length: usize,
        columns: *const u32,
        columns_length: usize,
        values: *const f64,
        values_length: usize,
        row_count: u32,
        column_count: u32,
        row_starts: *mut u64,
        row_starts_length: usize,
        kept_columns: *mut u32,
        kept_columns_length: usize,
        kept_values: *mut f64,
        kept_values_length: usize,
    ) -> CGathered;
}

/// What only a C caller can give or see: flags that are neither 0 nor 1, and the whole answer of a refused call.
#[cfg(test)]
mod tests {
    use super::*;
    use crate::{Element, Elements, KindPairs, TRIANGLE};

    const ELEMENT: Element = Element { a: 0, b: 0, c: 1 };
    const ELEMENTS: Elements = Elements {
        triangle: ELEMENT,
        quad: ELEMENT,
    };
    const KINDS: [u8; 1] = [TRIANGLE];

    /// Plans a mesh of one triangle with elements that have one DOF a cell.
    fn planned(batch: u32, integrand: CIntegrand, work: &mut [u32; 3]) -> CPlanned {
        let (vertices, edges) = ([0, 1, 2], [0, 1, 2]);
        let (mut dofs, mut colours, mut owners) = ([[9]; 2], [[9]; 2], [[9; 3]; 2]);
        let [test_dofs, trial_dofs] = &mut dofs;
        let [test_colours, trial_colours] = &mut colours;
        let [test_owners, trial_owners] = &mut owners;
        // SAFETY: each pointer and length is an array's, and no two are of one array.
        unsafe {
            seivalto_plan(
                1,
                3,
                3,
                KINDS.as_ptr(),
                1,
                vertices.as_ptr(),
                3,
                edges.as_ptr(),
                3,
                ELEMENTS,
                ELEMENTS,
                batch,
                integrand,
                test_dofs.as_mut_ptr(),
                1,
                trial_dofs.as_mut_ptr(),
                1,
                test_colours.as_mut_ptr(),
                1,
                trial_colours.as_mut_ptr(),
                1,
                test_owners.as_mut_ptr(),
                3,
                trial_owners.as_mut_ptr(),
                3,
                work.as_mut_ptr(),
                3,
            )
        }
    }

    /// Looks with the plan of that mesh.
    fn looked(run: CRun, work: &[u32; 3]) -> CLooked {
        let dofs = [0];
        // SAFETY: each pointer and length is an array's.
        unsafe {
            seivalto_look(
                run,
                KINDS.as_ptr(),
                1,
                dofs.as_ptr(),
                1,
                dofs.as_ptr(),
                1,
                work.as_ptr(),
                3,
            )
        }
    }

    /// Adds the one pair of that mesh, with the numbers of F1 of the paper, to a matrix of one number.
    fn added(run: CRun, work: &[u32; 3], matrix: &mut [f64; 1]) -> CAdded {
        let dofs = [0];
        let (weights, table, kernel) = ([0.5], [1.0], [0.25]);
        let mut geometry = [[0.0; 10]; 2];
        (geometry[0][0], geometry[1][0]) = (2.0, 4.0);
        // SAFETY: each pointer and length is an array's, and the matrix is of another array than the rest.
        unsafe {
            seivalto_add_touching(
                run,
                KINDS.as_ptr(),
                1,
                dofs.as_ptr(),
                1,
                dofs.as_ptr(),
                1,
                work.as_ptr(),
                3,
                1,
                weights.as_ptr(),
                1,
                table.as_ptr(),
                1,
                table.as_ptr(),
                1,
                kernel.as_ptr(),
                1,
                geometry[0].as_ptr(),
                10,
                geometry[1].as_ptr(),
                10,
                matrix.as_mut_ptr(),
                1,
            )
        }
    }

    fn integrand(scaled: u32, factor: f64) -> CIntegrand {
        let term = CTerm {
            scaled,
            kind: 0,
            factor,
        };
        CIntegrand {
            terms: 1,
            first: term,
            second: term,
        }
    }

    fn begun(numbers: CNumbers) -> CRun {
        // SAFETY: the call is lent nothing.
        unsafe { seivalto_begin(numbers) }
    }

    #[test]
    fn a_bare_term_with_any_factor() {
        for factor in [0.0, -0.0, 3.0, f64::INFINITY, f64::MIN_POSITIVE] {
            let (mut work, mut matrix) = ([9; 3], [10.0]);
            let answer = planned(1, integrand(0, factor), &mut work);
            assert_eq!((answer.refusal, work), (0, [27, 0, 0]));
            let run = begun(answer.numbers);
            let after = added(run, &work, &mut matrix);
            assert_eq!((after.refusal, matrix), (0, [11.0]));
            assert_eq!(
                after.run.numbers.integrand.first.factor.to_bits(),
                factor.to_bits()
            );
        }
    }

    #[test]
    fn a_scaled_term_with_any_flag_but_0() {
        for scaled in [1, 2, 255, 1 << 31, u32::MAX] {
            let (mut work, mut matrix) = ([9; 3], [10.0]);
            let answer = planned(1, integrand(scaled, -2.0), &mut work);
            assert_eq!(answer.refusal, 0);
            let after = added(begun(answer.numbers), &work, &mut matrix);
            assert_eq!((after.refusal, matrix), (0, [8.0]));
            assert_eq!(after.run.numbers.integrand.first.scaled, scaled);
            assert_eq!(
                planned(1, integrand(scaled, f64::NAN), &mut work).refusal,
                6
            );
        }
    }

    #[test]
    fn an_entries_run_with_any_flag_but_0() {
        let mut work = [9; 3];
        let numbers = planned(1, integrand(0, 0.0), &mut work).numbers;
        for entries in [1, 2, 1 << 31, u32::MAX] {
            let run = CRun {
                entries,
                ..begun(numbers)
            };
            let mut matrix = [10.0];
            let after = added(run, &work, &mut matrix);
            assert_eq!((after.refusal, matrix), (23, [10.0]));
            assert_eq!(format!("{:?}", after.run), format!("{run:?}"));
            let back = looked(run, &work);
            assert_eq!((back.refusal, back.run.entries), (0, entries));
        }
    }

    #[test]
    fn numbers_of_a_refused_planning() {
        let mut work = [9; 3];
        let answer = planned(0, integrand(7, 3.5), &mut work);
        assert_eq!((answer.refusal, work), (5, [9; 3]));
        let numbers = answer.numbers;
        let counts = [
            numbers.cells,
            numbers.vertices,
            numbers.edges,
            numbers.triangles,
            numbers.quads,
            numbers.touching,
            numbers.distant,
            numbers.rows,
            numbers.columns,
        ];
        let none = KindPairs {
            triangle_triangle: 0,
            triangle_quad: 0,
            quad_triangle: 0,
            quad_quad: 0,
        };
        assert_eq!((counts, numbers.pairs), ([0; 9], none));
        assert_eq!((numbers.test, numbers.trial), (ELEMENTS, ELEMENTS));
        assert_eq!(
            (
                numbers.integrand.first.scaled,
                numbers.integrand.first.factor
            ),
            (7, 3.5)
        );
        let back = looked(begun(numbers), &work);
        assert_eq!(back.refusal, 21);
        assert_eq!(
            (
                back.record.pattern,
                back.record.test_cell,
                back.record.trial_cell
            ),
            (0, 0, 0)
        );
    }

    #[test]
    fn refused_sparse_rows_keep_0() {
        let (rows, columns, values) = ([1], [0], [0.5]);
        for (row_count, room, expected) in [(2, 1, (0, 1)), (1, 1, (25, 0)), (2, 0, (24, 0))] {
            let (mut starts, mut kept_columns, mut kept_values) = ([9; 3], [9], [9.0]);
            // SAFETY: each pointer is an array's, with its length or less, and no two are of one array.
            let answer = unsafe {
                seivalto_sparse_rows(
                    rows.as_ptr(),
                    1,
                    columns.as_ptr(),
                    1,
                    values.as_ptr(),
                    1,
                    row_count,
                    1,
                    starts.as_mut_ptr(),
                    3,
                    kept_columns.as_mut_ptr(),
                    room,
                    kept_values.as_mut_ptr(),
                    room,
                )
            };
            assert_eq!((answer.refusal, answer.kept), expected);
        }
    }
}
