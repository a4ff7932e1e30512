// The program `sheet` of the model: reads a plan and then frames from standard
// input, writes the sheet.

use std::io::{self, Read, Write};

fn main() -> io::Result<()> {
    let mut input = Vec::new();
    io::stdin().read_to_end(&mut input)?;
    io::stdout()
        .lock()
        .write_all(&model::sheet::sheet_in_place(&input))
}
