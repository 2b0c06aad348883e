//! Plain f32 operations under the names of the algebraic ones, whose order a compiler may change.
use crate::math::AlgebraicComplex;

impl AlgebraicComplex for f32 {
    type Scalar = f32;
    #[inline(always)]
    fn algebraic_add(self, rhs: f32) -> f32 {
        self + rhs
    }
    #[inline(always)]
    fn algebraic_sub(self, rhs: f32) -> f32 {
        self - rhs
    }
    #[inline(always)]
    fn algebraic_mul(self, rhs: f32) -> f32 {
        self * rhs
    }
    #[inline(always)]
    fn algebraic_mul_conj(self, rhs: f32) -> f32 {
        self * rhs
    }
    #[inline(always)]
    fn algebraic_div(self, rhs: f32) -> f32 {
        self / rhs
    }
    #[inline(always)]
    fn algebraic_div_scalar(self, rhs: f32) -> f32 {
        self / rhs
    }
    #[inline(always)]
    fn algebraic_norm_sqr(self) -> f32 {
        self * self
    }
}
