//! A plain server that answers the lines of `lostd`, without proofs, to compare it with. See README.md.

mod answer;
mod book;
mod civic;
mod degrees;
mod desk;
mod grid;
mod lines;
mod mapping;
mod moment;
mod patterns;
mod refusal;
mod replay;
mod request;
mod ring;
mod serve;
mod texts;
mod tokens;
mod tree;

use moment::Moment;
use serve::Addresses;
use std::collections::HashMap;
use std::process::ExitCode;

const USAGE: &str = "usage:
    plain-server replay --name NAME --now TIME
    plain-server serve --name NAME --queries HOST:PORT [--desk HOST:PORT] [--map FILE] [--workers N]";

/// The options of the command line, by their names.
struct Options(HashMap<String, String>);

impl Options {
    fn read(mut words: impl Iterator<Item = String>) -> Result<Options, String> {
        let mut options = HashMap::new();
        while let Some(name) = words.next() {
            let value = words.next().ok_or(format!("{name} has no value"))?;
            options.insert(name, value);
        }
        Ok(Options(options))
    }

    fn optional(&mut self, name: &str) -> Option<String> {
        self.0.remove(name)
    }

    fn required(&mut self, name: &str) -> Result<String, String> {
        self.optional(name).ok_or(format!("{name} is missing"))
    }

    /// The server's name, in lower case.
    fn server_name(&mut self) -> Result<String, String> {
        let name = self.required("--name")?;
        let source = texts::source(&name).ok_or(format!("{name} is no server's name"))?;
        Ok(source.into_owned())
    }

    fn end(self) -> Result<(), String> {
        self.0
            .into_keys()
            .next()
            .map_or(Ok(()), |name| Err(format!("{name} is no option")))
    }
}

/// Does what the command line says; an error is a mistake in it.
fn run(mode: &str, mut options: Options) -> Result<std::io::Result<()>, String> {
    let name = options.server_name()?;
    match mode {
        "replay" => {
            let now = options.required("--now")?;
            let moment = Moment::of_stamp(&now).ok_or(format!("{now} is no time"))?;
            options.end()?;
            Ok(replay::replay(&name, moment))
        }
        "serve" => {
            let queries = options.required("--queries")?;
            let (desk, map) = (options.optional("--desk"), options.optional("--map"));
            let workers = options.optional("--workers").unwrap_or("4".to_owned());
            let workers = workers
                .parse()
                .map_err(|_| format!("{workers} is no number of workers"))?;
            options.end()?;
            let addresses = Addresses {
                queries: &queries,
                desk: desk.as_deref(),
                map: map.as_deref(),
                workers,
            };
            Ok(serve::serve(&name, &addresses))
        }
        _ => Err(format!("{mode} is no mode")),
    }
}

fn main() -> ExitCode {
    let mut words = std::env::args().skip(1);
    let mode = words.next().unwrap_or_default();
    match Options::read(words).and_then(|options| run(&mode, options)) {
        Ok(Ok(())) => ExitCode::SUCCESS,
        Ok(Err(error)) => {
            eprintln!("plain-server: {error}");
            ExitCode::from(1)
        }
        Err(mistake) => {
            eprintln!("plain-server: {mistake}\n{USAGE}");
            ExitCode::from(2)
        }
    }
}
