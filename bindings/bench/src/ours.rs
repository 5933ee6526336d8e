//! The times of the library and of the program.

use std::fs::File;
use std::hint::black_box;
use std::io;
use std::path::Path;
use std::process::{Command, Stdio};
use std::time::{Duration, Instant};

/// How long the conversions of one round take together, at least.
const ROUND: Duration = Duration::from_millis(10);

/// The output of the library.
pub fn output(text: &[u8]) -> Result<String, juirkes::Refused> {
    let mut buffer = vec![0; juirkes::OUTPUT_ROOM];
    let length = juirkes::convert(text, &mut buffer)?;
    Ok(String::from_utf8_lossy(&buffer[..length]).into_owned())
}

/// Microseconds of one conversion, as the mean over a round: reading, all checks and writing.
pub fn conversion(text: &[u8]) -> f64 {
    let mut buffer = vec![0; juirkes::OUTPUT_ROOM];
    let start = Instant::now();
    let mut count = 0;
    while count < 16 || start.elapsed() < ROUND {
        // Sixteen conversions for each look at the clock.
        for _ in 0..16 {
            let answer = juirkes::convert(black_box(text), black_box(&mut buffer));
            black_box(answer.is_ok());
        }
        count += 16;
    }
    start.elapsed().as_secs_f64() * 1e6 / f64::from(count)
}

/// Milliseconds of one whole process of the program on a text.
pub fn process(program: &Path, text: &Path) -> io::Result<f64> {
    let input = File::open(text)?;
    let mut command = Command::new(program);
    command.stdin(input).stdout(Stdio::null());
    milliseconds(&mut command)
}

/// What the program prints on a text.
pub fn process_output(program: &Path, text: &Path) -> io::Result<Vec<u8>> {
    let output = Command::new(program).stdin(File::open(text)?).output()?;
    Ok(output.stdout)
}

/// Milliseconds from the start of a process to its end.
pub fn milliseconds(command: &mut Command) -> io::Result<f64> {
    let start = Instant::now();
    let status = command.status()?;
    let time = start.elapsed().as_secs_f64() * 1e3;
    if status.success() {
        Ok(time)
    } else {
        Err(io::Error::other(format!("{command:?} ended with {status}")))
    }
}
