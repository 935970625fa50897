//! Keeps what the original answers: sample LINES DRIVER STDIN STDOUT.
//!
//! A kept line goes to STDIN and the original's answer to STDOUT. What is dropped (refusals, skips) changed no log,
//! so the kept lines by themselves have the same answers.

use runs::lines::split;

fn main() -> std::io::Result<()> {
    let arguments: Vec<String> = std::env::args().skip(1).collect();
    let [lines, driver, stdin, stdout] = &arguments[..] else {
        eprintln!("usage: sample LINES DRIVER STDIN STDOUT");
        std::process::exit(2)
    };
    let (lines, driver) = (std::fs::read(lines)?, std::fs::read(driver)?);
    let (mut kept, mut answers) = (Vec::new(), Vec::new());
    for (line, answer) in split(&lines).into_iter().zip(split(&driver)) {
        if answer == b"0" || answer.starts_with(b"0 ") {
            kept.extend_from_slice(line);
            kept.push(b'\n');
            answers.extend_from_slice(answer);
            answers.push(b'\n');
        }
    }
    std::fs::write(stdin, kept)?;
    std::fs::write(stdout, answers)
}
