//! What planning is given: mesh, elements, batch size and integrand.

/// The kind of a cell: how many vertices and edges it has.
pub const TRIANGLE: u8 = 3;
pub const QUAD: u8 = 4;

/// C cells, V vertices, E edges; the kind of each cell, and its vertex and edge numbers, cell after cell.
#[derive(Clone, Debug, Default, PartialEq)]
pub struct Mesh {
    pub cells: u32,
    pub vertices: u32,
    pub edges: u32,
    pub kinds: Vec<u8>,
    pub cell_vertices: Vec<u32>,
    pub cell_edges: Vec<u32>,
}

impl Mesh {
    pub fn of_triangles(
        vertices: u32,
        edges: u32,
        cell_vertices: Vec<u32>,
        cell_edges: Vec<u32>,
    ) -> Self {
        let cells = cell_vertices.len() / 3;
        Self {
            cells: cells as u32,
            vertices,
            edges,
            kinds: vec![TRIANGLE; cells],
            cell_vertices,
            cell_edges,
        }
    }

    /// Triangles and quads, so far as there are any; triangles where there are neither.
    pub fn kinds_present(&self) -> Vec<u8> {
        let has = |kind| self.kinds.contains(&kind);
        match (has(TRIANGLE), has(QUAD)) {
            (true, true) => vec![TRIANGLE, QUAD],
            (false, true) => vec![QUAD],
            _ => vec![TRIANGLE],
        }
    }

    pub fn is_mixed(&self) -> bool {
        self.kinds_present().len() == 2
    }

    /// A list of vertex or edge numbers, cut into those of each cell.
    pub fn cut<'a>(&self, mut list: &'a [u32]) -> Vec<&'a [u32]> {
        let mut cells = vec![];
        for kind in &self.kinds {
            let (cell, rest) = list.split_at(*kind as usize);
            cells.push(cell);
            list = rest;
        }
        cells
    }
}

/// DOFs a vertex, an edge, a cell.
pub type Element = [u32; 3];

/// The DOFs of a cell.
pub fn dim(kind: u8, [a, b, c]: Element) -> usize {
    let [n, a, b, c] = [kind as u32, a, b, c].map(|n| n as usize);
    n * a + n * b + c
}

/// The element of triangles and that of quads. That of a kind which no cell has is not read.
#[derive(Clone, Copy, Debug, PartialEq, Eq, PartialOrd, Ord)]
pub struct Elements {
    pub triangle: Element,
    pub quad: Element,
}

impl Elements {
    /// The same for both kinds.
    pub fn both(element: Element) -> Self {
        Self {
            triangle: element,
            quad: element,
        }
    }

    pub fn of(&self, kind: u8) -> Element {
        match kind {
            TRIANGLE => self.triangle,
            _ => self.quad,
        }
    }

    pub fn dim(&self, kind: u8) -> usize {
        dim(kind, self.of(kind))
    }

    /// How long a DOF list is.
    pub fn places(&self, kinds: &[u8]) -> usize {
        kinds.iter().map(|kind| self.dim(*kind)).sum()
    }
}

/// A kind, 0 to 4, bare or with a factor.
#[derive(Clone, Copy, Debug, PartialEq)]
pub struct Term {
    pub kind: u32,
    pub factor: Option<f64>,
}

/// One term or two.
#[derive(Clone, Copy, Debug, PartialEq)]
pub struct Integrand {
    pub first: Term,
    pub second: Option<Term>,
}

impl Integrand {
    pub fn bare(kind: u32) -> Self {
        Self {
            first: Term { kind, factor: None },
            second: None,
        }
    }

    fn has(&self, kind: u32) -> bool {
        self.first.kind == kind || self.second.is_some_and(|t| t.kind == kind)
    }

    /// K.
    pub fn kernel_width(&self) -> usize {
        if self.has(1) || self.has(2) {
            4
        } else {
            1
        }
    }

    /// D.
    pub fn table_rows(&self) -> usize {
        if self.has(3) {
            3
        } else {
            1
        }
    }
}

#[derive(Clone, Debug, PartialEq)]
pub struct Job {
    pub mesh: Mesh,
    pub test: Elements,
    pub trial: Elements,
    pub batch: u32,
    pub integrand: Integrand,
}
