//! The six functions by name, and the oracle's answers.

use crate::standard;
use crate::word::one_nan;

#[derive(Clone, Copy, Debug, PartialEq, Eq)]
pub enum Function {
    Sinf,
    Cosf,
    Tanf,
    Sinpif,
    Cospif,
    Tanpif,
}

use Function::{Cosf, Cospif, Sinf, Sinpif, Tanf, Tanpif};

pub const ALL: [Function; 6] = [Sinf, Cosf, Tanf, Sinpif, Cospif, Tanpif];

impl Function {
    pub fn name(self) -> &'static str {
        match self {
            Sinf => "sinf",
            Cosf => "cosf",
            Tanf => "tanf",
            Sinpif => "sinpif",
            Cospif => "cospif",
            Tanpif => "tanpif",
        }
    }

    pub fn named(name: &str) -> Result<Function, String> {
        ALL.into_iter()
            .find(|function| function.name() == name)
            .ok_or_else(|| format!("`{name}` is none of sinf cosf tanf sinpif cospif tanpif"))
    }

    /// Whether the argument is counted in half turns rather than radians.
    pub fn in_half_turns(self) -> bool {
        matches!(self, Sinpif | Cospif | Tanpif)
    }

    /// The plain path of pxfm, from word to word.
    pub fn oracle(self) -> fn(u32) -> u32 {
        match self {
            Sinf => crate::sin_cosf::sinf::plain,
            Cosf => crate::sin_cosf::cosf::plain,
            Tanf => crate::tangent::tanf::plain,
            Sinpif => crate::sin_cosf::sinpif::plain,
            Cospif => crate::sin_cosf::cospif::plain,
            Tanpif => crate::tangent::tanpif::plain,
        }
    }

    /// The answer ours should give: the standards' where they decide, else
    /// the oracle's, with one NaN.
    pub fn expected(self, word: u32) -> u32 {
        match standard::decided(self, word) {
            Some((_, answer)) => answer,
            None => one_nan((self.oracle())(word)),
        }
    }
}
