//! Stand-in for `rlst`: column-major dynamic arrays of f64, their columns, and the shape of a CSR matrix.
use num::{NumCast, Zero};
use std::marker::PhantomData;
use std::ops::{Add, AddAssign, Div, Mul, Neg, Sub};

/// Scalars.
pub trait RlstScalar:
    Copy
    + NumCast
    + Zero
    + Neg<Output = Self>
    + Add<Output = Self>
    + Sub<Output = Self>
    + Mul<Output = Self>
    + Div<Output = Self>
    + AddAssign
    + Send
    + Sync
    + 'static
{
    type Real: RlstScalar<Real = Self::Real> + PartialOrd;
    fn abs(self) -> Self::Real;
    fn re(self) -> Self::Real;
}

impl RlstScalar for f64 {
    type Real = f64;
    fn abs(self) -> f64 {
        f64::abs(self)
    }
    fn re(self) -> f64 {
        self
    }
}

/// Scalars whose matrices can be inverted. The assemblers invert none.
pub trait MatrixInverse {}

impl MatrixInverse for f64 {}

/// Holds the numbers of an array.
pub struct VectorContainer<T>(Vec<T>);

/// Numbers, shape and strides.
pub struct BaseArray<T, Data, const N: usize> {
    data: Data,
    shape: [usize; N],
    stride: [usize; N],
    _item: PhantomData<T>,
}

/// An array.
pub struct Array<T, Implementation, const N: usize> {
    implementation: Implementation,
    _item: PhantomData<T>,
}

/// An array that owns its numbers.
pub type DynamicArray<T, const N: usize> = Array<T, BaseArray<T, VectorContainer<T>, N>, N>;

impl<T: RlstScalar, const N: usize> DynamicArray<T, N> {
    /// All zero.
    pub fn from_shape(shape: [usize; N]) -> Self {
        let mut stride = [1; N];
        for i in 1..N {
            stride[i] = stride[i - 1] * shape[i - 1];
        }
        Array {
            implementation: BaseArray {
                data: VectorContainer(vec![T::zero(); shape.iter().product()]),
                shape,
                stride,
                _item: PhantomData,
            },
            _item: PhantomData,
        }
    }

    #[inline]
    fn place(&self, index: [usize; N]) -> usize {
        let mut place = 0;
        for i in 0..N {
            place += index[i] * self.implementation.stride[i];
        }
        place
    }
}

impl<T: RlstScalar> DynamicArray<T, 2> {
    /// The columns, one after the other.
    pub fn col_iter(&self) -> impl Iterator<Item = Column<'_, T>> {
        let rows = self.implementation.shape[0];
        self.data().chunks_exact(rows).map(Column)
    }

    /// The columns, to be written.
    pub fn col_iter_mut(&mut self) -> impl Iterator<Item = ColumnMut<'_, T>> {
        let rows = self.implementation.shape[0];
        self.data_mut().chunks_exact_mut(rows).map(ColumnMut)
    }
}

/// A column.
pub struct Column<'a, T>(&'a [T]);

/// A column, to be written.
pub struct ColumnMut<'a, T>(&'a mut [T]);

/// Walks numbers.
pub trait DefaultIterator {
    type Item;
    fn iter(&self) -> impl Iterator<Item = Self::Item>;
}

impl<T: Copy> DefaultIterator for Column<'_, T> {
    type Item = T;
    #[inline]
    fn iter(&self) -> impl Iterator<Item = T> {
        self.0.iter().copied()
    }
}

/// Walks numbers, to be written.
pub trait DefaultIteratorMut {
    type Item;
    fn iter_mut(&mut self) -> impl Iterator<Item = &mut Self::Item>
    where
        Self::Item: 'static;
}

impl<T> DefaultIteratorMut for ColumnMut<'_, T> {
    type Item = T;
    #[inline]
    fn iter_mut(&mut self) -> impl Iterator<Item = &mut T>
    where
        T: 'static,
    {
        self.0.iter_mut()
    }
}

/// The shape.
pub trait Shape<const N: usize> {
    fn shape(&self) -> [usize; N];
}

impl<T, const N: usize> Shape<N> for DynamicArray<T, N> {
    fn shape(&self) -> [usize; N] {
        self.implementation.shape
    }
}

/// The numbers in a row.
pub trait RawAccess {
    type Item;
    fn data(&self) -> &[Self::Item];
}

impl<T, const N: usize> RawAccess for DynamicArray<T, N> {
    type Item = T;
    #[inline]
    fn data(&self) -> &[T] {
        &self.implementation.data.0
    }
}

/// The numbers in a row, to be written.
pub trait RawAccessMut {
    type Item;
    fn data_mut(&mut self) -> &mut [Self::Item];
}

impl<T, const N: usize> RawAccessMut for DynamicArray<T, N> {
    type Item = T;
    #[inline]
    fn data_mut(&mut self) -> &mut [T] {
        &mut self.implementation.data.0
    }
}

/// A number to be written, or none where the index is outside the shape.
pub trait RandomAccessMut<const N: usize> {
    type Item;
    fn get_mut(&mut self, index: [usize; N]) -> Option<&mut Self::Item>;
}

impl<T: RlstScalar, const N: usize> RandomAccessMut<N> for DynamicArray<T, N> {
    type Item = T;
    fn get_mut(&mut self, index: [usize; N]) -> Option<&mut T> {
        if std::iter::zip(index, self.implementation.shape).any(|(i, n)| i >= n) {
            return None;
        }
        let place = self.place(index);
        self.implementation.data.0.get_mut(place)
    }
}

/// A number, unchecked.
pub trait UnsafeRandomAccessByRef<const N: usize> {
    type Item;
    /// # Safety
    /// The index lies in the shape.
    unsafe fn get_unchecked(&self, index: [usize; N]) -> &Self::Item;
}

impl<T: RlstScalar, const N: usize> UnsafeRandomAccessByRef<N> for DynamicArray<T, N> {
    type Item = T;
    #[inline]
    unsafe fn get_unchecked(&self, index: [usize; N]) -> &T {
        self.implementation.data.0.get_unchecked(self.place(index))
    }
}

/// The parts of a CSR matrix. `assemble_singular` alone makes one, and it is not the reference.
pub struct CsrMatrix<T> {
    pub shape: [usize; 2],
    pub indices: Vec<usize>,
    pub indptr: Vec<usize>,
    pub data: Vec<T>,
}

impl<T: RlstScalar> CsrMatrix<T> {
    pub fn new(shape: [usize; 2], indices: Vec<usize>, indptr: Vec<usize>, data: Vec<T>) -> Self {
        Self {
            shape,
            indices,
            indptr,
            data,
        }
    }

    /// Sums the entries of one place in the order given.
    pub fn from_aij(
        shape: [usize; 2],
        rows: &[usize],
        cols: &[usize],
        data: &[T],
    ) -> Result<Self, &'static str> {
        let mut sums = std::collections::BTreeMap::new();
        for ((i, j), x) in rows.iter().zip(cols).zip(data) {
            sums.entry((*i, *j))
                .and_modify(|sum| *sum += *x)
                .or_insert(*x);
        }
        let mut indptr = vec![0; shape[0] + 1];
        for (i, _) in sums.keys() {
            indptr[i + 1] += 1;
        }
        for i in 0..shape[0] {
            indptr[i + 1] += indptr[i];
        }
        let indices = sums.keys().map(|(_, j)| *j).collect();
        Ok(Self::new(
            shape,
            indices,
            indptr,
            sums.into_values().collect(),
        ))
    }
}

#[macro_export]
macro_rules! rlst_dynamic_array2 {
    ($scalar:ty, $shape:expr) => {
        $crate::DynamicArray::<$scalar, 2>::from_shape($shape)
    };
}

#[macro_export]
macro_rules! rlst_dynamic_array3 {
    ($scalar:ty, $shape:expr) => {
        $crate::DynamicArray::<$scalar, 3>::from_shape($shape)
    };
}

#[macro_export]
macro_rules! rlst_dynamic_array4 {
    ($scalar:ty, $shape:expr) => {
        $crate::DynamicArray::<$scalar, 4>::from_shape($shape)
    };
}
