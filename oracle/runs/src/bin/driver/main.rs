//! Answers `probe` lines by the original Rust.
//!
//!     driver                    lines on standard input, all run
//!     driver LINES ANSWERS      only what the port's answers say it did not refuse changes a log
//!
//! A line of output is the original's answer, `panic`, or one of
//!
//! - `skip N`: refused by N; N is the driver's own finding for 1, 2, 3, 15, 17, 18, 20 and 21 and the port's for 4 to 8,
//!   19 and 22;
//! - `skip unnamed`, `skip named ..`: the port answers, the original cannot be asked;
//! - `16`: the original's list is longer than the room;
//! - a word in capitals: the port's refusal is one that the original denies.

mod clocks;
mod graph;
mod history;
mod reply;

use std::{
    io::{self, BufWriter, Read, Write},
    panic::{self, AssertUnwindSafe},
};

use graph::Graph;
use history::History;
use reply::{Reply, bad_count, bad_vector};
use runs::{
    answer::{Answer, report_of},
    lines::{self, Call, Clock, Command, Event, Visit},
    model::Probe,
};

struct Driver {
    room: usize,
    clocks: Option<u64>,
    graph: Option<Graph>,
    history: Option<History>,
    /// What the documents say of the lines, where no port is at hand.
    model: Probe,
}

impl Driver {
    /// The refusals that the driver finds by itself, before it asks the original.
    fn refusal(&self, command: &Command) -> Option<u64> {
        match command {
            Command::Room(_) => None,
            Command::Clock(Clock::Replicas(r)) | Command::Graph(Call::New(r)) | Command::History(Call::New(r)) => {
                bad_count(*r).then_some(17)
            }
            Command::Graph(Call::From(r, _)) if bad_count(*r) => Some(17),
            Command::Graph(Call::From(r, v)) => bad_vector(*r, v).then_some(3),
            Command::Clock(call) => clocks::refusal(self.clocks.unwrap(), call),
            Command::Graph(call) => self.graph.as_ref().unwrap().refusal(call),
            Command::History(call) => self.history.as_ref().unwrap().refusal(call),
            Command::WaitingRoom(Visit::Arrive(note)) => self.history.as_ref().unwrap().arrival_refusal(note),
            Command::WaitingRoom(_) => None,
        }
    }

    fn run(&mut self, command: &Command) -> Reply {
        match command {
            Command::Room(n) => self.room = *n,
            Command::Clock(Clock::Replicas(r)) => self.clocks = Some(*r),
            Command::Graph(Call::New(r)) => self.graph = Some(Graph::new(*r)),
            Command::Graph(Call::From(r, v)) => self.graph = Some(Graph::from(*r, v)),
            Command::History(Call::New(r)) => self.history = Some(History::new(*r)),
            Command::Clock(call) => return clocks::run(self.clocks.unwrap(), call).into(),
            Command::Graph(call) => return self.graph.as_mut().unwrap().run(call),
            Command::History(call) => return self.history.as_mut().unwrap().run(call),
            Command::WaitingRoom(visit) => return self.history.as_ref().unwrap().visit(visit).into(),
        }
        Answer::Done.into()
    }

    /// The reply, or none where the original panics.
    fn try_run(&mut self, command: &Command) -> Option<Reply> {
        panic::catch_unwind(AssertUnwindSafe(|| self.run(command))).ok()
    }

    /// As `try_run`, with both logs as before where the original panics, or always.
    fn try_run_aside(&mut self, command: &Command, restore: bool) -> Option<Reply> {
        let changed = match command {
            Command::Graph(call) | Command::History(call) => call.changes(),
            _ => false,
        };
        if !changed {
            return self.try_run(command);
        }
        let is_graph = matches!(command, Command::Graph(_));
        let graph = if is_graph { self.graph.clone() } else { None };
        let history = if is_graph { None } else { self.history.clone() };
        let reply = self.try_run(command);
        if restore || reply.is_none() {
            if is_graph {
                self.graph = graph;
            } else {
                self.history = history;
            }
        }
        reply
    }

    fn text(&self, reply: Option<Reply>) -> String {
        match reply {
            None => "panic".to_string(),
            Some(Reply::Skip(why)) => format!("skip {why}"),
            Some(Reply::Answer(answer)) if answer.list_length() > self.room => "16".to_string(),
            Some(Reply::Answer(answer)) => answer.text(),
        }
    }

    /// The command to ask the original, or what to print instead.
    fn command(&self, line: &[u8]) -> Result<Command, String> {
        let graph = self.graph.as_ref().map(|graph| graph.replicas);
        let history = self.history.as_ref().map(|history| history.replicas);
        let command = lines::parse(line)
            .and_then(|command| command.filled(self.clocks, graph, history))
            .ok_or("skip 18")?;
        match self.refusal(&command) {
            Some(number) => Err(format!("skip {number}")),
            None => Ok(command),
        }
    }

    /// What a waiting room hands over, the original does not know: the model says it.
    fn plain(&mut self, line: &[u8]) -> String {
        let model = self.model.answer(line).text();
        match self.command(line) {
            Err(text) => text,
            Ok(Command::WaitingRoom(Visit::Arrive(note))) => self.arrival(&note, &model),
            Ok(command) => {
                let reply = self.try_run_aside(&command, false);
                self.text(reply)
            }
        }
    }

    /// An arrival: by the port's report, or refused by it.
    fn arrival(&mut self, note: &Event, port: &str) -> String {
        let history = self.history.as_mut().unwrap();
        match (port, report_of(port)) {
            (_, Some(report)) => {
                let reply = history.arrive(note, &report);
                self.text(Some(reply))
            }
            ("12", _) => {
                let append = Command::History(Call::Append(note.clone()));
                let reply = self.try_run_aside(&append, true);
                self.text(reply)
            }
            ("22", _) if history.waiting.len() == 64 => "skip 22".to_string(),
            _ => format!("NOT {port}"),
        }
    }

    /// As `plain`, in step with a port that answered `port`.
    fn beside(&mut self, line: &[u8], port: &str) -> String {
        let command = match self.command(line) {
            Err(text) => return text,
            Ok(command) => command,
        };
        if let Command::WaitingRoom(Visit::Arrive(note)) = &command {
            return self.arrival(note, port);
        }
        let number = port.split(' ').next().unwrap_or("");
        if number == "0" {
            let reply = self.try_run(&command);
            return self.text(reply);
        }
        let graph_append = matches!(command, Command::Graph(Call::Append(_)));
        if graph_append && matches!(number, "4" | "5" | "6" | "7" | "8" | "19") {
            return format!("skip {number}");
        }
        let claims_panic = match (number, &command) {
            ("9" | "11" | "12" | "13" | "14", _) => true,
            ("10", Command::Graph(Call::ReplicaEvents(o, ..))) => self.graph.as_ref().unwrap().knows(*o),
            ("10", _) => true,
            ("2", command) => matches!(command, Command::Clock(Clock::VersionJoin(..))),
            _ => false,
        };
        let history_append = matches!(command, Command::History(Call::Append(_)));
        let reply = self.try_run_aside(&command, true);
        let text = self.text(reply);
        match (number, text.as_str()) {
            (_, "panic") if claims_panic => text,
            _ if claims_panic => format!("NOPANIC {text}"),
            ("10", "0") | ("16", "16") => format!("skip {number}"),
            ("8", "0") if history_append => format!("skip {number}"),
            _ => format!("NOT {number} BUT {text}"),
        }
    }
}

fn read(path: &str) -> Vec<u8> {
    std::fs::read(path).unwrap_or_else(|error| {
        eprintln!("driver: {path}: {error}");
        std::process::exit(2)
    })
}

fn main() -> io::Result<()> {
    let arguments: Vec<String> = std::env::args().skip(1).collect();
    panic::set_hook(Box::new(|_| {}));
    let mut out = BufWriter::new(io::stdout().lock());
    let mut driver = Driver {
        room: 512,
        clocks: None,
        graph: None,
        history: None,
        model: Probe::default(),
    };
    match &arguments[..] {
        [] => {
            let mut text = Vec::new();
            io::stdin().lock().read_to_end(&mut text)?;
            for line in lines::split(&text) {
                writeln!(out, "{}", driver.plain(line))?;
            }
        }
        [lines, answers] => {
            let (lines, answers) = (read(lines), read(answers));
            let (lines, answers) = (lines::split(&lines), lines::split(&answers));
            if lines.len() != answers.len() {
                eprintln!("driver: {} lines, but {} answers", lines.len(), answers.len());
                std::process::exit(2);
            }
            for (line, port) in lines.iter().zip(answers) {
                writeln!(out, "{}", driver.beside(line, &String::from_utf8_lossy(port)))?;
            }
        }
        _ => {
            eprintln!("usage: driver [LINES ANSWERS]");
            std::process::exit(2);
        }
    }
    out.flush()
}
