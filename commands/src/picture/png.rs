//! A page as a PNG, by a program that is installed.

use std::io::{ErrorKind, Write};
use std::path::Path;
use std::process::{Command, Stdio};
use std::thread;
use words::end::{no, reason, End};

/// Programs that read an SVG from standard input and write a PNG to standard output, the better ones first; and what helps where they do
/// not.
const CONVERTERS: [Converter; 3] = [
    Converter {
        program: "rsvg-convert",
        words: &["--format=png"],
        remedy: "a long take is drawn in parts by --from and --to",
    },
    Converter {
        program: "magick",
        words: MAGICK,
        remedy: RSVG,
    },
    Converter {
        program: "convert",
        words: MAGICK,
        remedy: RSVG,
    },
];
const MAGICK: &[&str] = &["svg:-", "png:-"];
const RSVG: &str = "rsvg-convert does it better (Debian: librsvg2-bin)";
/// What a PNG begins with.
const BEGINS: &[u8] = b"\x89PNG\r\n\x1a\n";

/// A program that makes a PNG.
pub struct Converter {
    program: &'static str,
    words: &'static [&'static str],
    remedy: &'static str,
}

/// The first of them that can be started; none is said of the file that it is for.
pub fn converter(to: &Path) -> Result<Converter, End> {
    for converter in CONVERTERS {
        let mut asked = Command::new(converter.program);
        let asked = asked.arg("--version").stdin(Stdio::null()).output();
        if !matches!(asked, Err(error) if error.kind() == ErrorKind::NotFound) {
            return Ok(converter);
        }
    }
    Err(no(
        to,
        "neither rsvg-convert nor ImageMagick is on the PATH; install one (Debian: librsvg2-bin), or leave --png out",
    ))
}

impl Converter {
    /// The PNG of a page, for a file.
    pub fn picture(&self, svg: &str, to: &Path) -> Result<Vec<u8>, End> {
        let failed = |why: &str| no(to, &format!("{}: {why}", self.program));
        let mut command = Command::new(self.program);
        command
            .args(self.words)
            .stdin(Stdio::piped())
            .stdout(Stdio::piped())
            .stderr(Stdio::piped());
        let mut child = command.spawn().map_err(|error| failed(&reason(&error)))?;
        let input = child.stdin.take();
        let output = thread::scope(|scope| {
            // one that ends without reading all says why by itself
            scope.spawn(move || input.map(|mut input| input.write_all(svg.as_bytes())));
            child.wait_with_output()
        });
        let output = output.map_err(|error| failed(&reason(&error)))?;
        match output.status.success() && output.stdout.starts_with(BEGINS) {
            true => Ok(output.stdout),
            false => {
                let said = String::from_utf8_lossy(&output.stderr);
                let said = said.lines().next().unwrap_or("it wrote no PNG");
                Err(failed(&format!("{said}; {}", self.remedy)))
            }
        }
    }
}
