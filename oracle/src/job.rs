//! What planning is given: mesh, elements, batch size and integrand.

/// C cells, V vertices, E edges; three vertex and three edge numbers a cell.
#[derive(Clone, Debug, Default, PartialEq)]
pub struct Mesh {
    pub cells: u32,
    pub vertices: u32,
    pub edges: u32,
    pub cell_vertices: Vec<u32>,
    pub cell_edges: Vec<u32>,
}

impl Mesh {
    pub fn vertices_of(&self, cell: usize) -> &[u32] {
        &self.cell_vertices[3 * cell..3 * cell + 3]
    }

    pub fn edges_of(&self, cell: usize) -> &[u32] {
        &self.cell_edges[3 * cell..3 * cell + 3]
    }
}

/// DOFs a vertex, an edge, a cell.
pub type Element = [u32; 3];

pub fn dim(element: Element) -> usize {
    let [a, b, c] = element;
    (3 * a + 3 * b + c) as usize
}

/// A kind, 0 to 4, bare or with a factor.
#[derive(Clone, Copy, Debug, PartialEq)]
pub struct Term {
    pub kind: u32,
    pub factor: Option<f64>,
}

/// One term or two.
#[derive(Clone, Copy, Debug, PartialEq)]
pub struct Integrand {
    pub first: Term,
    pub second: Option<Term>,
}

impl Integrand {
    pub fn bare(kind: u32) -> Self {
        Self {
            first: Term { kind, factor: None },
            second: None,
        }
    }

    fn has(&self, kind: u32) -> bool {
        self.first.kind == kind || self.second.is_some_and(|t| t.kind == kind)
    }

    /// K.
    pub fn kernel_width(&self) -> usize {
        if self.has(1) || self.has(2) {
            4
        } else {
            1
        }
    }

    /// D.
    pub fn table_rows(&self) -> usize {
        if self.has(3) {
            3
        } else {
            1
        }
    }
}

#[derive(Clone, Debug, PartialEq)]
pub struct Job {
    pub mesh: Mesh,
    pub test: Element,
    pub trial: Element,
    pub batch: u32,
    pub integrand: Integrand,
}
