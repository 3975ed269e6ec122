//! What the program `daxfolin` is called with. One table of commands and
//! options ([`table`]) makes parsing, `--help`, the man pages and the shells'
//! completion, so that they cannot differ.
//!
//! Nothing here needs the proved library. So `--help`, `--version`, usage
//! errors and missing files are answered before anything is proved
//! (`src/look.rs`).

pub mod coded;
pub mod completion;
pub mod end;
pub mod help;
pub mod man;
pub mod parse;
pub mod request;
pub mod scales;
pub mod signals;
pub mod standard;
pub mod table;

use end::End;
use std::ffi::OsString;

/// The version of the commands.
pub const VERSION: &str = env!("CARGO_PKG_VERSION");

/// What is asked for, once what needs no library is answered.
pub fn asked(
    words: Vec<OsString>,
    library: &str,
) -> Result<Option<request::Request>, (String, End)> {
    use parse::Asked;
    let general = |end| ("daxfolin".to_string(), end);
    let print = |text: &str| standard::print(text).map(|()| None).map_err(general);
    match parse::asked(words).map_err(|(program, why)| (program, End::Usage(why)))? {
        Asked::Overview => print(&help::overview()),
        Asked::Help(command) => print(&help::of(command)),
        Asked::Version(name) => print(&format!("{name} {VERSION}, {library}\n")),
        Asked::Man(page) => print(&man::page(page)),
        Asked::Completion(shell) => print(&completion::of(shell)),
        Asked::Scales => print(&scales::list()),
        Asked::Run(command, given) => request::of(command, given)
            .map(Some)
            .map_err(|why| (command.program(), End::Usage(why))),
    }
}
