//! Looks at the words before anything is proved or built: answers what needs
//! no library, and says what is wrong with the words and which file is missing.
//! Status 120: all is right so far, and the program itself is needed.

use std::fs;
use std::process::ExitCode;
use words::end::{failed, finish};
use words::standard::look_before_main;

#[used]
#[link_section = ".init_array"]
static BEFORE_MAIN: extern "C" fn() = look_before_main;

const GO_ON: u8 = 120;

fn main() -> ExitCode {
    let given: Vec<_> = std::env::args_os().skip(1).collect();
    let name = given.first().cloned().unwrap_or_default();
    let request = match words::asked(given, "the library is not built yet") {
        Err((program, end)) => return finish(&program, Err(end)),
        Ok(None) => return ExitCode::SUCCESS,
        Ok(Some(request)) => request,
    };
    for file in request.inputs() {
        if let Err(error) = fs::metadata(file) {
            let program = format!("daxfolin {}", name.to_string_lossy());
            return finish(&program, Err(failed(file, &error)));
        }
    }
    ExitCode::from(GO_ON)
}
