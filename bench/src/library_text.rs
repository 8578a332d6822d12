//! The library's read and write, over lent outputs.

use crate::library_answer::written;
use bench::peer::Written;

pub fn read(text: &[u8], output: &mut [u8]) -> Written {
    written(doilystrand::read_rule(text, output).map(<[u8]>::len))
}

pub fn write(rule: &[u8], output: &mut [u8]) -> Written {
    written(doilystrand::write_rule(rule, output).map(str::len))
}
