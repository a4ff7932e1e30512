// Holds the model's sheets against kept ones, byte for byte. Run in model/:
//   cargo run --release --offline --bin check_vectors [vectors/sheets]

use std::path::Path;
use std::process::exit;
use std::{env, io};

use model::sheet::vectors::check_folder;

fn main() -> io::Result<()> {
    let kept = concat!(env!("CARGO_MANIFEST_DIR"), "/vectors/sheets");
    let folder = env::args().nth(1).unwrap_or(kept.to_string());
    let checked = check_folder(Path::new(&folder))?;
    for (group, sheets) in &checked.groups {
        println!("{group}: {sheets} sheets");
    }
    let answers: Vec<String> = checked
        .answers
        .iter()
        .map(|(answer, times)| format!("{times} of {answer}"))
        .collect();
    println!("answers: {}", answers.join(", "));
    for name in &checked.wrong {
        println!("written otherwise: {name}");
    }
    let wrong = checked.wrong.len();
    println!("{} sheets as kept, {wrong} not", checked.sheets() - wrong);
    if wrong > 0 || checked.sheets() == 0 {
        exit(1);
    }
    Ok(())
}
