//! A stand-in. The sources of pxfm that are included mention a type
//! `DoubleDouble`, but none of the six functions comes to it.

#[derive(Clone, Copy)]
pub(crate) struct DoubleDouble;

#[allow(dead_code)]
impl DoubleDouble {
    pub(crate) fn mul_add(_: Self, _: Self, _: Self) -> Self {
        unreachable!("a stand-in was called")
    }
    pub(crate) fn quick_mult(_: Self, _: Self) -> Self {
        unreachable!("a stand-in was called")
    }
    pub(crate) fn quick_mul_add(_: Self, _: Self, _: Self) -> Self {
        unreachable!("a stand-in was called")
    }
    pub(crate) fn quick_mult_fma(_: Self, _: Self) -> Self {
        unreachable!("a stand-in was called")
    }
    pub(crate) fn quick_mul_add_fma(_: Self, _: Self, _: Self) -> Self {
        unreachable!("a stand-in was called")
    }
    pub(crate) fn dd_f64_mul_add(_: f64, _: f64, _: f64) -> f64 {
        unreachable!("a stand-in was called")
    }
}
