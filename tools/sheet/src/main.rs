//! The program `sheet`; `sheet --help` lists its commands.

use sheet::command::OUTPUT_CLOSED;
use std::ffi::c_int;
use std::sync::atomic::Ordering;

extern "C" {
    fn fcntl(file: c_int, command: c_int, ...) -> c_int;
}

/// Asks for a file's flags; it fails where the file isn't open.
const F_GETFD: c_int = 1;

/// Runs before the Rust runtime, which opens /dev/null in the place of a closed standard output.
extern "C" fn look_at_output() {
    OUTPUT_CLOSED.store(unsafe { fcntl(1, F_GETFD) } == -1, Ordering::Relaxed);
}

#[used]
#[link_section = ".init_array"]
static LOOK_AT_OUTPUT: extern "C" fn() = look_at_output;

fn main() {
    let words: Vec<String> = std::env::args_os().skip(1).map(|word| word.to_string_lossy().into()).collect();
    std::process::exit(sheet::command::main(&words) as i32)
}
