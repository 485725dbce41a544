//! A stand-in. The sources of pxfm that are included mention a type
//! `DyadicFloat128`, but none of the six functions comes to it.

use std::ops::{Add, Mul};

#[derive(Clone, Copy)]
pub(crate) struct DyadicFloat128;

#[allow(dead_code)]
impl DyadicFloat128 {
    pub(crate) fn new_from_f64(_: f64) -> Self {
        unreachable!("a stand-in was called")
    }
    pub(crate) fn fast_as_f64(self) -> f64 {
        unreachable!("a stand-in was called")
    }
    pub(crate) fn quick_add(&self, _: &Self) -> Self {
        unreachable!("a stand-in was called")
    }
    pub(crate) fn quick_mul(&self, _: &Self) -> Self {
        unreachable!("a stand-in was called")
    }
}

impl Add for DyadicFloat128 {
    type Output = Self;
    fn add(self, _: Self) -> Self {
        unreachable!("a stand-in was called")
    }
}

impl Mul for DyadicFloat128 {
    type Output = Self;
    fn mul(self, _: Self) -> Self {
        unreachable!("a stand-in was called")
    }
}
