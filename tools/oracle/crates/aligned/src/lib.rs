//! Data aligned to 64 bytes.

pub trait Alignment {
    const ALIGN: usize;
}
#[derive(Copy, Clone, Debug, PartialEq, Eq)]
#[repr(align(64))]
pub struct A64;
impl Alignment for A64 {
    const ALIGN: usize = 64;
}
#[derive(Copy, Clone, Debug, PartialEq)]
#[repr(C)]
pub struct Aligned<A, T: ?Sized> {
    _a: [A; 0],
    value: T,
}
#[allow(non_snake_case)]
pub const fn Aligned<A, T>(value: T) -> Aligned<A, T> {
    Aligned { _a: [], value }
}
impl<A, T> std::ops::Deref for Aligned<A, T> {
    type Target = T;
    #[inline]
    fn deref(&self) -> &T {
        &self.value
    }
}
impl<A, T> std::ops::DerefMut for Aligned<A, T> {
    #[inline]
    fn deref_mut(&mut self) -> &mut T {
        &mut self.value
    }
}
