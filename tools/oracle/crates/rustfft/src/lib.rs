//! The FFT is not part of the comparison: it can be planned, and running it stops.

use num::complex::Complex;
use std::sync::Arc;
pub trait Fft<T>: Sync + Send {
    fn process_with_scratch(&self, buffer: &mut [Complex<T>], scratch: &mut [Complex<T>]);
    fn get_inplace_scratch_len(&self) -> usize;
}
struct None_;
impl<T> Fft<T> for None_ {
    fn process_with_scratch(&self, _: &mut [Complex<T>], _: &mut [Complex<T>]) {
        unimplemented!("the FFT is not taken")
    }
    fn get_inplace_scratch_len(&self) -> usize {
        0
    }
}
pub struct FftPlanner<T>(std::marker::PhantomData<T>);
impl<T: 'static> FftPlanner<T> {
    pub fn new() -> Self {
        FftPlanner(std::marker::PhantomData)
    }
    pub fn plan_fft_forward(&mut self, _: usize) -> Arc<dyn Fft<T>> {
        Arc::new(None_)
    }
}
