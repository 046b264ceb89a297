//! Reads standard input and prints what the independent controller does with it: the stepper's answers to calls; with
//! the argument `sheet` the handover sheet of images, with `record` the record of one.

use makowist_host::{lines, record, sheet};
use std::io::{self, Error, Read, Write};

fn main() -> io::Result<()> {
    let argument = std::env::args().nth(1);
    let written = match argument.as_deref() {
        None => lines::stepped,
        Some("sheet") => sheet::sheet,
        Some("record") => record::record,
        Some(other) => return Err(Error::other(format!("{other}: not sheet, not record"))),
    };
    let mut input = Vec::new();
    io::stdin().read_to_end(&mut input)?;
    io::stdout().write_all(written(&input).as_bytes())
}
