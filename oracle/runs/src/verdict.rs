//! How a line fared on the two sides.

use crate::lines::parse;

#[derive(PartialEq)]
pub enum Verdict {
    /// The port answers, and the original the same.
    Equal,
    /// The port answers, and the original cannot be asked.
    NotAsked,
    /// The port refuses by this number; whether the original was seen to panic.
    Refused(u64, bool),
    Disagree,
}

/// Of the port's answer, the driver's and the model's.
pub fn verdict(port: &str, driver: &str, model: &str) -> Verdict {
    if port.ends_with("CHANGED") || port != model {
        return Verdict::Disagree;
    }
    let answered = port == "0" || port.starts_with("0 ");
    let not_asked = driver == "skip unnamed" || driver == format!("skip named {}", port.get(2..).unwrap_or(""));
    match port.parse() {
        _ if answered && port == driver => Verdict::Equal,
        _ if answered && not_asked => Verdict::NotAsked,
        Ok(number @ 1..=22) if driver == format!("skip {number}") => Verdict::Refused(number, false),
        Ok(number @ (2 | 9..=14)) if driver == "panic" => Verdict::Refused(number, true),
        _ => Verdict::Disagree,
    }
}

/// The word that a line is counted under.
pub fn word(line: &[u8]) -> String {
    match parse(line) {
        Some(_) => String::from_utf8_lossy(line.split(|&b| b == b' ').next().unwrap()).into_owned(),
        None => BAD_LINE.to_string(),
    }
}

pub const BAD_LINE: &str = "(bad line)";
