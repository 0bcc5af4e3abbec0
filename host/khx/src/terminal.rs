//! Whether an input or an output is a terminal.

use std::os::raw::c_int;

const STDIN: c_int = 0;
const STDOUT: c_int = 1;
const STDERR: c_int = 2;

extern "C" {
    fn isatty(descriptor: c_int) -> c_int;
}

pub fn is_input() -> bool {
    is_terminal(STDIN)
}

pub fn is_output() -> bool {
    is_terminal(STDOUT)
}

pub fn is_error() -> bool {
    is_terminal(STDERR)
}

fn is_terminal(descriptor: c_int) -> bool {
    // It takes any number and only reads it.
    unsafe { isatty(descriptor) == 1 }
}
