// A program that reads a sheet from a pipe.

use std::ffi::{c_int, c_ulong};
use std::io::{self, ErrorKind, Read, Write};
use std::os::fd::AsRawFd;
use std::process::{Child, ChildStdin, Command, Stdio};
use std::thread;

extern "C" {
    fn ioctl(file: c_int, request: c_ulong, ...) -> c_int;
}

/// How many bytes of a pipe are not read yet (Linux).
const FIONREAD: c_ulong = 0x541B;

/// What the program writes for the sheet, passed in pieces of so many bytes.
pub fn written(program: &str, sheet: &[u8], piece: usize) -> io::Result<Vec<u8>> {
    let mut child = Command::new(program)
        .stdin(Stdio::piped())
        .stdout(Stdio::piped())
        .stderr(Stdio::piped())
        .spawn()?;
    let mut stdout = child.stdout.take().expect("a pipe");
    let mut stderr = child.stderr.take().expect("a pipe");
    let reader = thread::spawn(move || {
        let (mut text, mut told) = (Vec::new(), String::new());
        stdout.read_to_end(&mut text)?;
        stderr.read_to_string(&mut told)?;
        match told.is_empty() {
            true => Ok(text),
            false => Err(io::Error::other(told)),
        }
    });
    match pass(&mut child, sheet, piece) {
        // The program may end with bytes left.
        Err(error) if error.kind() != ErrorKind::BrokenPipe => return Err(error),
        _ => {}
    }
    let status = child.wait()?;
    let text = reader.join().expect("a reader that ends")?;
    if status.success() {
        Ok(text)
    } else {
        Err(io::Error::other(status.to_string()))
    }
}

/// Each piece once the one before it has been read, so that no read has more
/// than one.
fn pass(child: &mut Child, sheet: &[u8], piece: usize) -> io::Result<()> {
    let mut stdin = child.stdin.take().expect("a pipe");
    for (number, part) in sheet.chunks(piece).enumerate() {
        if number > 0 {
            while unread(&stdin)? > 0 && child.try_wait()?.is_none() {
                thread::yield_now();
            }
        }
        stdin.write_all(part)?;
    }
    Ok(())
}

fn unread(pipe: &ChildStdin) -> io::Result<c_int> {
    let mut count: c_int = 0;
    match unsafe { ioctl(pipe.as_raw_fd(), FIONREAD, &mut count) } {
        0 => Ok(count),
        _ => Err(io::Error::last_os_error()),
    }
}
