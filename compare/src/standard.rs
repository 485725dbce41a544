//! Answers decided by IEEE 754-2019 and C23 Annex F, which pxfm gives with
//! the other sign for some words:
//!
//! 1. cospi of n + 1/2 is +0 for every whole n;
//! 2. tanpi of a whole n is +0 for positive even and negative odd n, and
//!    -0 for positive odd and negative even n (+0 of +0, -0 of -0);
//! 3. tanpi of n + 1/2 is positive infinity for even n, negative for odd n.

use crate::function::Function;
use crate::word::{INFINITY, SIGN};

#[derive(Clone, Copy, Debug, PartialEq, Eq)]
pub enum Case {
    CosineOfHalf,
    TangentOfWhole,
    TangentOfHalf,
}

/// What kind of half turn count a finite float is, with the parity of n.
#[derive(Clone, Copy, Debug, PartialEq, Eq)]
enum Turn {
    /// The float is ±n.
    Whole {
        odd: bool,
    },
    /// The float is ±(n + 1/2), with n not negative.
    Half {
        odd: bool,
    },
    Other,
}

/// Of the magnitude of a word, by its digits alone.
#[inline]
fn turn(word: u32) -> Turn {
    let magnitude = word & !SIGN;
    if magnitude == 0 {
        return Turn::Whole { odd: false };
    }
    if magnitude >= INFINITY {
        return Turn::Other;
    }
    let exponent = magnitude >> 23;
    // |x| < 1/2
    if exponent < 126 {
        return Turn::Other;
    }
    // |x| >= 2^24
    if exponent > 150 {
        return Turn::Whole { odd: false };
    }
    // |x| = digits * 2^(exponent - 150), so 2|x| = digits / 2^(149 - exponent).
    let digits = (magnitude & 0x007f_ffff) | 0x0080_0000;
    if exponent == 150 {
        return Turn::Whole {
            odd: digits & 1 == 1,
        };
    }
    let places = 149 - exponent;
    if digits & ((1 << places) - 1) != 0 {
        return Turn::Other;
    }
    let twice = digits >> places;
    let odd = (twice >> 1) & 1 == 1;
    if twice & 1 == 0 {
        Turn::Whole { odd }
    } else {
        Turn::Half { odd }
    }
}

/// The answer the standards decide, if they do and pxfm may differ.
#[inline]
pub fn decided(function: Function, word: u32) -> Option<(Case, u32)> {
    if !matches!(function, Function::Cospif | Function::Tanpif) {
        return None;
    }
    let negative = word & SIGN != 0;
    match (function, turn(word)) {
        (Function::Cospif, Turn::Half { .. }) => Some((Case::CosineOfHalf, 0)),
        // tanpi is odd, and negative for positive odd n.
        (Function::Tanpif, Turn::Whole { odd }) => {
            Some((Case::TangentOfWhole, if odd != negative { SIGN } else { 0 }))
        }
        // -(n + 1/2) is (-n - 1) + 1/2, of the other parity.
        (Function::Tanpif, Turn::Half { odd }) => Some((
            Case::TangentOfHalf,
            if odd != negative {
                SIGN | INFINITY
            } else {
                INFINITY
            },
        )),
        _ => None,
    }
}

#[cfg(test)]
mod tests {
    use super::*;

    fn answer(function: Function, x: f32) -> Option<u32> {
        decided(function, x.to_bits()).map(|(_, answer)| answer)
    }

    #[test]
    fn cosine() {
        for x in [0.5f32, -0.5, 1.5, -1.5, 2.5, 8388607.5, -8388607.5] {
            assert_eq!(answer(Function::Cospif, x), Some(0), "{x}");
        }
        for x in [
            0.0f32,
            1.0,
            0.25,
            0.50000006,
            8388608.0,
            f32::INFINITY,
            f32::NAN,
            1e-40,
        ] {
            assert_eq!(answer(Function::Cospif, x), None, "{x}");
        }
    }

    #[test]
    fn tangent() {
        for x in [0.0f32, 2.0, 4.0, -1.0, -3.0, 16777216.0, 3e38, -8388609.0] {
            assert_eq!(answer(Function::Tanpif, x), Some(0), "{x}");
        }
        for x in [-0.0f32, -2.0, -4.0, 1.0, 3.0, -16777216.0, -3e38, 8388609.0] {
            assert_eq!(answer(Function::Tanpif, x), Some(SIGN), "{x}");
        }
        for x in [0.5f32, 2.5, -1.5, -3.5] {
            assert_eq!(answer(Function::Tanpif, x), Some(INFINITY), "{x}");
        }
        for x in [-0.5f32, -2.5, 1.5, 3.5, 8388607.5] {
            assert_eq!(answer(Function::Tanpif, x), Some(SIGN | INFINITY), "{x}");
        }
        for x in [0.25f32, 0.75, 1.0000001, f32::INFINITY, f32::NAN, 1e-40] {
            assert_eq!(answer(Function::Tanpif, x), None, "{x}");
        }
    }

    #[test]
    fn no_other_function() {
        for function in [
            Function::Sinf,
            Function::Cosf,
            Function::Tanf,
            Function::Sinpif,
        ] {
            for x in [0.0f32, 0.5, 1.0, -1.5, 8388607.5] {
                assert_eq!(answer(function, x), None);
            }
        }
    }
}
