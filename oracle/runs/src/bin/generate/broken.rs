//! Lines that break a rule of PROBE.md, most of them a good line with one thing wrong.

use runs::{lines::LONGEST, random::Random};

/// At the edges of numbers; some are good lines.
const EDGES: [&str; 14] = [
    "g.retain 256",
    "h.retain 256",
    "g.retain 1 300",
    "g.get 0 1 4294967296",
    "h.get 0 1 4294967296",
    "g.get 0 1 4294967295",
    "h.get 0 18446744073709551615 -",
    "g.append 0 1 - 1 1 4294967296 1",
    "h.append 0 1 - 1 1 4294967296 1",
    "g.append 0 1 - 1 1 4294967295 1",
    "r.arrive 0 1 - 1 1 4294967296 1",
    "room 1025",
    "room 01",
    "c.sum 0 0 0 0 0 0 0 0 0 0 0 0 0 0 0 0 0",
];

/// No words, or words of the other log.
const WORDS: [&str; 12] = [
    "sheet",
    "g.",
    "h.",
    "c.",
    "r.",
    "r.iter",
    "h.roots",
    "h.cuts",
    "g.version 0 1 -",
    "g.next 0 1 - 0",
    "replicas 3",
    "room",
];

/// The line with its word at `at` replaced.
fn with_word(line: &str, at: usize, word: &str) -> String {
    let words: Vec<&str> = line
        .split(' ')
        .enumerate()
        .map(|(i, w)| if i == at { word } else { w })
        .collect();
    words.join(" ")
}

/// A mask line of exactly so many bytes: a good line up to the longest.
fn mask_line(random: &mut Random, bytes: usize) -> String {
    let mut line = random.pick(&["g.retain", "h.retain"]).to_string();
    while line.len() + 3 < bytes {
        line.push_str(if random.chance(50) { " 0" } else { " 1" });
    }
    while line.len() < bytes {
        line.push_str(if bytes - line.len() == 3 { " 10" } else { " 1" });
    }
    line
}

pub fn broken(random: &mut Random, line: &str) -> Vec<u8> {
    let words = line.split(' ').count();
    let at = random.index(words);
    let number_at = 1 + random.index(words.max(2) - 1);
    let word = line.split(' ').nth(number_at).unwrap_or("1");
    let text = match random.below(30) {
        0 => String::new(),
        1 => format!(" {line}"),
        2 => format!("{line} "),
        3 => line.replacen(' ', "  ", 1),
        4 => line.replacen(' ', "\t", 1),
        5 => format!("{line}\r"),
        6 => with_word(line, number_at, &format!("0{word}")),
        7 => with_word(line, number_at, "00"),
        8 => with_word(line, number_at, &format!("+{word}")),
        9 => with_word(line, number_at, &format!("-{word}")),
        10 => with_word(line, number_at, "18446744073709551616"),
        11 => with_word(line, number_at, "99999999999999999999999999999999999999999"),
        12 => with_word(line, number_at, "4294967296"),
        13 => with_word(line, number_at, "-"),
        14 => with_word(line, number_at, "|"),
        15 => with_word(line, number_at, ""),
        16 => with_word(line, number_at, "0x1"),
        17 => with_word(line, number_at, "1.0"),
        18 => format!("{line} 0"),
        19 => format!("{line} |"),
        20 => line.rsplit_once(' ').map_or("", |(rest, _)| rest).to_string(),
        21 => line.split(' ').next().unwrap_or("").to_string(),
        22 => line.to_uppercase(),
        23 => random.pick(&EDGES).to_string(),
        24 => random.pick(&WORDS).to_string(),
        25 => mask_line(random, LONGEST),
        26 => mask_line(random, LONGEST + 1),
        27 => mask_line(random, LONGEST - 1),
        28 => mask_line(random, 3 * LONGEST),
        _ => {
            let mut bytes = line.as_bytes().to_vec();
            let at = at.min(bytes.len() - 1);
            bytes[at] = *random.pick(&[0, 0x7f, 0x80, 0xff, b'~', b' ']);
            return bytes;
        }
    };
    text.into_bytes()
}
