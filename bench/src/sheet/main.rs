// Times the engine's program and the model's on a sheet of 1,000,000 accepted
// steps and some more, both reading a file and writing to a file. Run in bench/, once
// target/bin/sheet and the model's sheet are built:
//   cargo run --release --offline --bin bench_sheet [engine's program [model's]]

use std::fs::{self, File};
use std::path::{Path, PathBuf};
use std::process::Command;
use std::time::Instant;
use std::{env, io};

use model::random::Random;
use model::sheet::practice::million;
use model::sheet::sheet_in_place;

const ROUNDS: usize = 15;

fn main() -> io::Result<()> {
    let target = Path::new(env!("CARGO_MANIFEST_DIR")).join("../target");
    let built = [target.join("bin/sheet"), target.join("model/release/sheet")];
    let mut given = env::args().skip(1).map(PathBuf::from);
    let programs = built.map(|built| given.next().unwrap_or(built));
    let (input, output) = (target.join("million.in"), target.join("million.out"));
    let sheet = million(&mut Random::new(1));
    fs::write(&input, &sheet)?;
    let text = sheet_in_place(&sheet);
    println!(
        "a sheet of 1,000,000 accepted steps and some more, {} bytes read, {} written",
        sheet.len(),
        text.len()
    );
    let mut least = [f64::INFINITY; 2];
    for _ in 0..ROUNDS {
        for (program, least) in programs.iter().zip(&mut least) {
            *least = least.min(time(program, &input, &output)?);
            assert!(fs::read(&output)? == text, "{}", program.display());
        }
    }
    let [engine, model] = least;
    println!("seconds, the least of {ROUNDS} rounds; aims: at most 1.0 times the model's, under 1 second");
    println!("{:>10}{:>10}{:>16}", "engine", "model", "engine / model");
    println!("{engine:>10.3}{model:>10.3}{:>16.2}", engine / model);
    for program in &programs {
        report_calls(program, &input, &output)?;
    }
    Ok(())
}

fn command(program: &Path, input: &Path, output: &Path) -> io::Result<Command> {
    let mut command = Command::new(program);
    command
        .stdin(File::open(input)?)
        .stdout(File::create(output)?);
    Ok(command)
}

fn time(program: &Path, input: &Path, output: &Path) -> io::Result<f64> {
    let mut command = command(program, input, output)?;
    let start = Instant::now();
    let status = command.status()?;
    let seconds = start.elapsed().as_secs_f64();
    assert!(status.success(), "{}: {status}", program.display());
    Ok(seconds)
}

/// System calls, if `strace` is at hand.
fn report_calls(program: &Path, input: &Path, output: &Path) -> io::Result<()> {
    let calls = output.with_extension("calls");
    let mut traced = command(Path::new("strace"), input, output)?;
    let traced = traced.arg("-f").arg("-o").arg(&calls).arg(program).status();
    if !traced.is_ok_and(|status| status.success()) {
        println!("strace is not at hand: system calls are not counted");
        return Ok(());
    }
    let calls = fs::read_to_string(calls)?;
    let count = |name: &str| calls.lines().filter(|line| line.contains(name)).count();
    println!(
        "{}: {} system calls, of them {} reads and {} writes",
        program.display(),
        calls.lines().count(),
        count(" read("),
        count(" write(")
    );
    Ok(())
}
