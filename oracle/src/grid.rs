//! The grid of a job as the published Rust asks for it: one process, triangles, and geometry that is lent.
use crate::job::Mesh;
use crate::numbers::Numbers;
use mpi::OneProcess;
use ndelement::types::ReferenceCellType;
use ndgrid::traits::{Entity, GeometryMap, Grid, ParallelGrid, Topology};
use ndgrid::types::Ownership;
use std::sync::Mutex;

pub struct TriangleGrid<'a> {
    counts: [usize; 3],
    cell_vertices: Vec<usize>,
    cell_edges: Vec<usize>,
    /// 0, 1, 2 and so on, so that an entity can list itself.
    numbers: Vec<usize>,
    cells_at_vertex: Vec<Vec<usize>>,
    lent: &'a Numbers,
    /// The geometry that was asked for, as mark and cell, where it is noted.
    asked: Option<Mutex<Vec<[usize; 2]>>>,
    comm: OneProcess,
}

const TYPES: [ReferenceCellType; 3] = [
    ReferenceCellType::Point,
    ReferenceCellType::Interval,
    ReferenceCellType::Triangle,
];

impl<'a> TriangleGrid<'a> {
    /// With `note` set the grid notes which geometry it is asked for.
    pub fn new(mesh: &Mesh, lent: &'a Numbers, note: bool) -> Self {
        let counts = [mesh.vertices, mesh.edges, mesh.cells].map(|n| n as usize);
        let wide = |list: &[u32]| list.iter().map(|n| *n as usize).collect::<Vec<_>>();
        let cell_vertices = wide(&mesh.cell_vertices);
        let mut cells_at_vertex = vec![vec![]; counts[0]];
        for (i, v) in cell_vertices.iter().enumerate() {
            if *v < counts[0] && cells_at_vertex[*v].last() != Some(&(i / 3)) {
                cells_at_vertex[*v].push(i / 3);
            }
        }
        Self {
            counts,
            cell_vertices,
            cell_edges: wide(&mesh.cell_edges),
            numbers: (0..*counts.iter().max().unwrap()).collect(),
            cells_at_vertex,
            lent,
            asked: note.then(Mutex::default),
            comm: OneProcess,
        }
    }

    pub fn take_asked(&self) -> Vec<[usize; 2]> {
        self.asked
            .as_ref()
            .map(|asked| std::mem::take(&mut *asked.lock().unwrap()))
            .unwrap_or_default()
    }
}

/// An entity of a dimension.
#[derive(Clone, Copy)]
pub struct TriangleEntity<'a> {
    grid: &'a TriangleGrid<'a>,
    dim: usize,
    index: usize,
}

impl Topology for TriangleEntity<'_> {
    #[inline]
    fn sub_entity_iter(&self, dim: usize) -> impl Iterator<Item = usize> {
        let (grid, i) = (self.grid, self.index);
        match (self.dim, dim) {
            (2, 0) => &grid.cell_vertices[3 * i..3 * i + 3],
            (2, 1) => &grid.cell_edges[3 * i..3 * i + 3],
            (2, 2) => &grid.numbers[i..i + 1],
            _ => unimplemented!("entities of dimension {dim} on one of {}", self.dim),
        }
        .iter()
        .copied()
    }

    #[inline]
    fn connected_entity_iter(&self, dim: usize) -> impl Iterator<Item = usize> {
        assert_eq!((self.dim, dim), (0, 2));
        self.grid.cells_at_vertex[self.index].iter().copied()
    }
}

impl Entity for TriangleEntity<'_> {
    type EntityDescriptor = ReferenceCellType;
    #[inline]
    fn entity_type(&self) -> ReferenceCellType {
        TYPES[self.dim]
    }
    #[inline]
    fn local_index(&self) -> usize {
        self.index
    }
    #[inline]
    fn topology(&self) -> impl Topology {
        *self
    }
    #[inline]
    fn ownership(&self) -> Ownership {
        Ownership::Owned
    }
}

impl Grid for TriangleGrid<'_> {
    type T = f64;
    type EntityDescriptor = ReferenceCellType;
    type GeometryMap<'b>
        = LentGeometry<'b>
    where
        Self: 'b;

    fn geometry_dim(&self) -> usize {
        3
    }
    fn topology_dim(&self) -> usize {
        2
    }
    fn entity_types(&self, dim: usize) -> &[ReferenceCellType] {
        &TYPES[dim..dim + 1]
    }
    fn entity_count(&self, entity_type: ReferenceCellType) -> usize {
        let dim = TYPES.iter().position(|t| *t == entity_type);
        dim.map_or(0, |dim| self.counts[dim])
    }
    #[inline]
    fn entity(
        &self,
        dim: usize,
        index: usize,
    ) -> Option<impl Entity<EntityDescriptor = ReferenceCellType>> {
        (index < self.counts[dim]).then_some(TriangleEntity {
            grid: self,
            dim,
            index,
        })
    }
    fn entity_iter(
        &self,
        dim: usize,
    ) -> impl Iterator<Item = impl Entity<EntityDescriptor = ReferenceCellType>> {
        (0..self.counts[dim]).map(move |index| TriangleEntity {
            grid: self,
            dim,
            index,
        })
    }
    /// The first number of the points says which rule they are of, and whose.
    fn geometry_map(&self, _: ReferenceCellType, points: &[f64]) -> LentGeometry<'_> {
        LentGeometry {
            lent: self.lent,
            asked: self.asked.as_ref(),
            mark: points[0] as usize,
        }
    }
}

impl ParallelGrid<OneProcess> for TriangleGrid<'_> {
    type LocalGrid = Self;
    fn comm(&self) -> &OneProcess {
        &self.comm
    }
    fn local_grid(&self) -> &Self {
        self
    }
}

/// The mark of the points of a rule: 2·rule on the test side, one more on the trial side.
pub fn mark(rule: usize, trial: bool) -> f64 {
    (2 * rule + trial as usize) as f64
}

/// Copies geometry that was made beforehand.
pub struct LentGeometry<'a> {
    lent: &'a Numbers,
    asked: Option<&'a Mutex<Vec<[usize; 2]>>>,
    mark: usize,
}

impl GeometryMap for LentGeometry<'_> {
    type T = f64;

    /// A mapped point names its cell and the mark of its rule: the kernel finds its values by them.
    fn points(&self, cell: usize, points: &mut [f64]) {
        for point in points.chunks_exact_mut(3) {
            point.copy_from_slice(&[cell as f64, self.mark as f64, 0.0]);
        }
    }

    fn jacobians_dets_normals(
        &self,
        cell: usize,
        jacobians: &mut [f64],
        jdets: &mut [f64],
        normals: &mut [f64],
    ) {
        if let Some(asked) = self.asked {
            asked.lock().unwrap().push([self.mark, cell]);
        }
        let geometry = self.lent.geometry(self.mark / 2, self.mark % 2 == 1, cell);
        for (p, point) in geometry.chunks_exact(10).enumerate() {
            jdets[p] = point[0];
            normals[3 * p..3 * p + 3].copy_from_slice(&point[1..4]);
            jacobians[6 * p..6 * p + 6].copy_from_slice(&point[4..]);
        }
    }
}
