//! Our own functions, from the static library named by LUHVEND_LIB.

use crate::function::Function;

unsafe extern "C" {
    fn luhvend_sinf(word: u32) -> u32;
    fn luhvend_cosf(word: u32) -> u32;
    fn luhvend_tanf(word: u32) -> u32;
    fn luhvend_sinpif(word: u32) -> u32;
    fn luhvend_cospif(word: u32) -> u32;
    fn luhvend_tanpif(word: u32) -> u32;
}

impl Function {
    /// Ours, from word to word.
    pub fn ours(self) -> unsafe extern "C" fn(u32) -> u32 {
        match self {
            Function::Sinf => luhvend_sinf,
            Function::Cosf => luhvend_cosf,
            Function::Tanf => luhvend_tanf,
            Function::Sinpif => luhvend_sinpif,
            Function::Cospif => luhvend_cospif,
            Function::Tanpif => luhvend_tanpif,
        }
    }
}
