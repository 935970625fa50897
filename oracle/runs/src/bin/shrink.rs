//! Makes a disagreement small: shrink LINES PORT [WORD..].
//!
//! Runs the port (a program and its words) and the driver that stands beside this program on ever fewer lines, as long as they,
//! or the port and the model, still disagree. Prints the smallest script found with all answers of its last line, and the
//! port's answers before it. Ends after so many runs and seconds.

use std::{
    io::Write,
    path::PathBuf,
    process::{Command, Stdio},
    time::{Duration, Instant},
};

use runs::{
    lines::split,
    model::Probe,
    text::read,
    verdict::{Verdict, verdict},
};

const MOST_RUNS: u32 = 600;
const LONGEST: Duration = Duration::from_secs(180);

type Line = Vec<u8>;

struct Sides {
    port: Vec<String>,
    driver: PathBuf,
    scratch: PathBuf,
    runs: u32,
    since: Instant,
}

/// The answers to each line up to the first disagreement.
struct Answers {
    port: Vec<String>,
    driver: Vec<String>,
    model: Vec<String>,
}

fn strings(text: &[u8]) -> Vec<String> {
    split(text)
        .iter()
        .map(|line| String::from_utf8_lossy(line).into_owned())
        .collect()
}

impl Sides {
    /// What the port answers; a port that ends early has answered one line more by nothing.
    fn ask_port(&self, lines: &[Line]) -> std::io::Result<Vec<String>> {
        let mut port = Command::new(&self.port[0])
            .args(&self.port[1..])
            .stdin(Stdio::piped())
            .stdout(Stdio::piped())
            .spawn()?;
        let mut stdin = port.stdin.take().expect("a pipe");
        let text = [lines.join(&b'\n'), vec![b'\n']].concat();
        // A port that ends early does not read the rest.
        let writing = std::thread::spawn(move || drop(stdin.write_all(&text)));
        let out = port.wait_with_output()?;
        writing.join().expect("the writing thread");
        let mut answers = strings(&out.stdout);
        if answers.len() < lines.len() {
            answers.push("(no answer)".to_string());
        }
        Ok(answers)
    }

    /// The first line that the sides disagree on, and all answers up to it.
    fn first_disagreement(&mut self, lines: &[Line]) -> std::io::Result<Option<(usize, Answers)>> {
        self.runs += 1;
        let port = self.ask_port(lines)?;
        let answered = port.len().min(lines.len());
        let (lines_file, port_file) = (self.scratch.join("lines"), self.scratch.join("port"));
        std::fs::write(&lines_file, [lines[..answered].join(&b'\n'), vec![b'\n']].concat())?;
        std::fs::write(&port_file, format!("{}\n", port[..answered].join("\n")))?;
        let driver = Command::new(&self.driver).arg(&lines_file).arg(&port_file).output()?;
        let driver = strings(&driver.stdout);
        let mut probe = Probe::default();
        let model: Vec<String> = lines[..answered].iter().map(|line| probe.answer(line).text()).collect();
        let answer = |side: &[String], i: usize| side.get(i).cloned().unwrap_or_default();
        let differs = |&i: &usize| verdict(&port[i], &answer(&driver, i), &model[i]) == Verdict::Disagree;
        Ok((0..answered)
            .find(differs)
            .map(|i| (i, Answers { port, driver, model })))
    }

    fn may_go_on(&self) -> bool {
        self.runs < MOST_RUNS && self.since.elapsed() < LONGEST
    }
}

/// Drops ever smaller pieces, the last lines first, as long as a disagreement stays.
fn shrink(sides: &mut Sides, mut lines: Vec<Line>) -> std::io::Result<Vec<Line>> {
    let mut piece = lines.len().div_ceil(2);
    while piece > 0 && sides.may_go_on() {
        let before = lines.len();
        // The last line is the one that they disagree on.
        let mut end = lines.len() - 1;
        while end > 0 && sides.may_go_on() {
            let start = end.saturating_sub(piece);
            let fewer = [&lines[..start], &lines[end..]].concat();
            if let Some((at, _)) = sides.first_disagreement(&fewer)? {
                lines = fewer[..=at].to_vec();
                end = start.min(lines.len() - 1);
            } else {
                end = start;
            }
        }
        let stuck = lines.len() == before;
        piece = match piece {
            1 if stuck => 0,
            1 => 1,
            _ => (piece / 2).min(lines.len().max(1)),
        };
    }
    Ok(lines)
}

fn main() -> std::io::Result<()> {
    let arguments: Vec<String> = std::env::args().skip(1).collect();
    let [path, port @ ..] = &arguments[..] else {
        eprintln!("usage: shrink LINES PORT [WORD..]");
        std::process::exit(2)
    };
    if port.is_empty() {
        eprintln!("usage: shrink LINES PORT [WORD..]");
        std::process::exit(2)
    }
    let mut sides = Sides {
        port: port.to_vec(),
        driver: std::env::current_exe()?.with_file_name("driver"),
        scratch: std::env::temp_dir().join(format!("shrink.{}", std::process::id())),
        runs: 0,
        since: Instant::now(),
    };
    std::fs::create_dir_all(&sides.scratch)?;
    let lines: Vec<Line> = split(&read(path)).iter().map(|line| line.to_vec()).collect();
    let found = match sides.first_disagreement(&lines)? {
        None => None,
        Some((at, _)) => {
            let small = shrink(&mut sides, lines[..=at].to_vec())?;
            sides
                .first_disagreement(&small)?
                .map(|(at, answers)| (small, at, answers))
        }
    };
    std::fs::remove_dir_all(&sides.scratch)?;
    let Some((lines, at, answers)) = found else {
        println!("no disagreement on these {} lines", lines.len());
        return Ok(());
    };
    println!(
        "the smallest script found, {} lines after {} runs, with the port's answers:",
        at + 1,
        sides.runs
    );
    for (line, answer) in lines[..at].iter().zip(&answers.port) {
        println!("    {}    -> {answer}", String::from_utf8_lossy(line));
    }
    println!("    {}", String::from_utf8_lossy(&lines[at]));
    let last = |side: &[String]| side.get(at).cloned().unwrap_or_default();
    println!("port:   {}", last(&answers.port));
    println!("driver: {}", last(&answers.driver));
    println!("model:  {}", last(&answers.model));
    std::process::exit(1)
}
