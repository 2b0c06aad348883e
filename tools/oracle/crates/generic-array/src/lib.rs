//! Arrays whose length is a type: two lengths are enough.

pub mod typenum {
    pub mod marker_traits {
        pub trait Unsigned {
            const USIZE: usize;
            const U64: u64;
        }
        pub trait PowerOfTwo {}
    }
    pub use marker_traits::PowerOfTwo;
    pub mod consts {
        use super::marker_traits::*;
        macro_rules! u { ($($n:ident $v:expr),*) => { $(
            #[derive(Copy, Clone, Debug, PartialEq, Eq, Hash, Default)] pub struct $n;
            impl Unsigned for $n { const USIZE: usize = $v; const U64: u64 = $v; }
            impl PowerOfTwo for $n {} )* } }
        u!(U8 8, U2048 2048);
    }
}
pub trait ArrayLength: typenum::marker_traits::Unsigned {}
impl<N: typenum::marker_traits::Unsigned> ArrayLength for N {}
#[derive(Clone, PartialEq, Eq, Hash)]
pub struct GenericArray<T, N> {
    v: Vec<T>,
    n: std::marker::PhantomData<N>,
}
impl<T: Default, N: ArrayLength> Default for GenericArray<T, N> {
    fn default() -> Self {
        <Self as sequence::GenericSequence<T>>::generate(|_| T::default())
    }
}
impl<T, N> std::ops::Deref for GenericArray<T, N> {
    type Target = [T];
    fn deref(&self) -> &[T] {
        &self.v
    }
}
impl<T, N> std::ops::DerefMut for GenericArray<T, N> {
    fn deref_mut(&mut self) -> &mut [T] {
        &mut self.v
    }
}
impl<T: std::fmt::Debug, N> std::fmt::Debug for GenericArray<T, N> {
    fn fmt(&self, f: &mut std::fmt::Formatter<'_>) -> std::fmt::Result {
        self.v.fmt(f)
    }
}
pub mod sequence {
    use super::*;
    pub trait GenericSequence<T>: Sized {
        fn generate<F: FnMut(usize) -> T>(f: F) -> Self;
    }
    impl<T, N: ArrayLength> GenericSequence<T> for GenericArray<T, N> {
        fn generate<F: FnMut(usize) -> T>(f: F) -> Self {
            GenericArray {
                v: (0..N::USIZE).map(f).collect(),
                n: std::marker::PhantomData,
            }
        }
    }
}
