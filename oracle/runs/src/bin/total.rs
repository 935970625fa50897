//! Adds up the tables that `compare` printed: total TABLE..
//!
//! Prints one table. Status 1, with a sentence for each fault, where a word or a refusal that can occur is at zero.

use runs::{counts::Counts, reach::faults, text::read};

fn main() {
    let mut total = Counts::default();
    for path in std::env::args().skip(1) {
        match Counts::read(&String::from_utf8_lossy(&read(&path))) {
            Ok(counts) => total.add(&counts),
            Err(line) => {
                eprintln!("total: {path}: no line of a table: {line}");
                std::process::exit(2)
            }
        }
    }
    total.print();
    let faults = faults(&total);
    for fault in &faults {
        println!("{fault}");
    }
    if !faults.is_empty() {
        std::process::exit(1);
    }
}
