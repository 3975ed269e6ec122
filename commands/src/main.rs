//! The program `daxfolin`.

use std::process::ExitCode;
use words::standard::look_before_main;

#[used]
#[link_section = ".init_array"]
static BEFORE_MAIN: extern "C" fn() = look_before_main;

fn main() -> ExitCode {
    commands::run(std::env::args_os().skip(1).collect())
}
