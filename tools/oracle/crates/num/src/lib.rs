//! Complex numbers, as far as the decoder uses them.

pub mod complex {
    #[derive(Copy, Clone, Debug, PartialEq, Default)]
    #[repr(C)]
    pub struct Complex<T> {
        pub re: T,
        pub im: T,
    }
    pub type Complex32 = Complex<f32>;
    impl<T> Complex<T> {
        #[inline]
        pub const fn new(re: T, im: T) -> Self {
            Complex { re, im }
        }
    }
    impl Complex<f32> {
        #[inline]
        pub fn conj(&self) -> Self {
            Complex {
                re: self.re,
                im: -self.im,
            }
        }
    }
}
