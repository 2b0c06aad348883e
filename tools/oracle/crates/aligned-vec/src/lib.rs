//! Named by the decoder and not used behind the derotated window.

pub struct ConstAlign<const N: usize>;
pub struct AVec<T, A> {
    _v: Vec<T>,
    _a: std::marker::PhantomData<A>,
}
