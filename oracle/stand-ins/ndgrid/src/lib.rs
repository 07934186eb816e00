//! Stand-in for `ndgrid`: what the assemblers ask of a grid.

pub mod types {
    /// Who owns an entity.
    #[derive(Clone, Copy, PartialEq, Eq, Debug)]
    pub enum Ownership {
        Owned,
        Ghost(usize, usize),
    }
}

pub mod traits {
    use crate::types::Ownership;
    use mpi::traits::Communicator;
    use rlst::RlstScalar;
    use std::hash::Hash;

    /// How an entity hangs together with others.
    pub trait Topology {
        /// The entities of a dimension on this one, in local order.
        fn sub_entity_iter(&self, dim: usize) -> impl Iterator<Item = usize>;
        /// The entities of a dimension that have this one, rising.
        fn connected_entity_iter(&self, dim: usize) -> impl Iterator<Item = usize>;
    }

    /// A vertex, an edge or a cell.
    pub trait Entity {
        type EntityDescriptor: Copy + Eq + Hash;
        fn entity_type(&self) -> Self::EntityDescriptor;
        fn local_index(&self) -> usize;
        fn topology(&self) -> impl Topology;
        fn ownership(&self) -> Ownership;
    }

    /// The map of the points of a rule into the cells.
    pub trait GeometryMap {
        type T: RlstScalar<Real = Self::T>;
        fn points(&self, entity: usize, points: &mut [Self::T]);
        fn jacobians_dets_normals(
            &self,
            entity: usize,
            jacobians: &mut [Self::T],
            jdets: &mut [Self::T],
            normals: &mut [Self::T],
        );
    }

    /// A grid.
    pub trait Grid {
        type T: RlstScalar<Real = Self::T>;
        type EntityDescriptor: Copy + Eq + Hash;
        type GeometryMap<'a>: GeometryMap<T = Self::T>
        where
            Self: 'a;
        fn geometry_dim(&self) -> usize;
        fn topology_dim(&self) -> usize;
        fn entity_types(&self, dim: usize) -> &[Self::EntityDescriptor];
        fn entity_count(&self, entity_type: Self::EntityDescriptor) -> usize;
        fn entity(
            &self,
            dim: usize,
            index: usize,
        ) -> Option<impl Entity<EntityDescriptor = Self::EntityDescriptor>>;
        fn entity_iter(
            &self,
            dim: usize,
        ) -> impl Iterator<Item = impl Entity<EntityDescriptor = Self::EntityDescriptor>>;
        fn geometry_map(
            &self,
            entity_type: Self::EntityDescriptor,
            points: &[Self::T],
        ) -> Self::GeometryMap<'_>;
    }

    /// A grid on the processes of a communicator.
    pub trait ParallelGrid<C: Communicator>: Grid {
        type LocalGrid: Grid<T = Self::T, EntityDescriptor = Self::EntityDescriptor> + Sync;
        fn comm(&self) -> &C;
        fn local_grid(&self) -> &Self::LocalGrid;
    }
}
