//! Holds the port's answers against the driver's: compare LINES PORT DRIVER [MODEL].
//!
//! Given the model's answers too, the port has to give those as well, refusal numbers included.
//! Stops at the first disagreement with status 1. Else prints how often each word and each refusal occurred.

use runs::{
    answer::report_of,
    counts::Counts,
    lines::split,
    text::read,
    verdict::{Verdict, verdict, word},
};

fn main() {
    let arguments: Vec<String> = std::env::args().skip(1).collect();
    if !(3..=4).contains(&arguments.len()) {
        eprintln!("usage: compare LINES PORT DRIVER [MODEL]");
        std::process::exit(2)
    }
    let texts: Vec<Vec<u8>> = arguments.iter().map(|path| read(path)).collect();
    let files: Vec<Vec<&[u8]>> = texts.iter().map(|text| split(text)).collect();
    let lines = &files[0];
    let mut counts = Counts::default();
    for (i, line) in lines.iter().enumerate() {
        let text = |file: usize| match files[file].get(i) {
            Some(answer) => String::from_utf8_lossy(answer).into_owned(),
            None => "(no answer)".to_string(),
        };
        let (port, driver) = (text(1), text(2));
        let model = if files.len() == 4 { text(3) } else { port.clone() };
        match verdict(&port, &driver, &model) {
            Verdict::Disagree => {
                println!("line {}: {}", i + 1, String::from_utf8_lossy(line));
                println!("port:   {port}");
                println!("driver: {driver}");
                if files.len() == 4 {
                    println!("model:  {model}");
                }
                std::process::exit(1);
            }
            verdict => {
                let word = word(line);
                if word == "r.arrive" {
                    counts.count_handed_over(&report_of(&port).unwrap_or_default());
                }
                counts.count(word, &verdict);
            }
        }
    }
    if let Some(longer) = (1..files.len()).find(|&file| files[file].len() != lines.len()) {
        println!(
            "{}: {} answers to {} lines",
            arguments[longer],
            files[longer].len(),
            lines.len()
        );
        std::process::exit(1);
    }
    counts.print();
}
