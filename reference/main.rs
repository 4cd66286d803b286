//! A second program for masked netlists and block files, written from the
//! rules alone. It writes the outputs that the verified library must give as
//! well.

mod bench;
mod block;
mod construct;
mod file;
mod generate;
mod hash;
mod inspect;
mod netlist;
mod numbers;
mod table;
mod tour;
mod vectors_files;
mod vectors_generated;
mod vectors_inspect;
mod vectors_netlist;

use std::env;
use std::error::Error;
use std::io::{self, BufWriter, Write};
use std::process::ExitCode;

use generate::Answer;

const USAGE: &str = "usage: vectors netlist | vectors files | vectors generated | \
    vectors inspect | tour generated | files longest | generate CONSTRUCTION INPUTS OUTPUTS ENTRY .. | \
    bench netlist REPEATS | bench files REPEATS | bench check REPEATS | \
    bench generate REPEATS";

/// What the arguments ask for.
enum Task<'a> {
    NetlistVectors,
    FileVectors,
    GeneratedVectors,
    InspectVectors,
    GeneratedTour,
    LongestFile,
    Generate { words: &'a [&'a str] },
    Bench { work: Work, repeats: u64 },
}

/// What is done repeatedly.
enum Work {
    Settle,
    Read,
    Check,
    Generate,
}

impl<'a> Task<'a> {
    fn from_words(words: &'a [&'a str]) -> Option<Task<'a>> {
        match words {
            ["vectors", "netlist"] => Some(Task::NetlistVectors),
            ["vectors", "files"] => Some(Task::FileVectors),
            ["vectors", "generated"] => Some(Task::GeneratedVectors),
            ["vectors", "inspect"] => Some(Task::InspectVectors),
            ["tour", "generated"] => Some(Task::GeneratedTour),
            ["files", "longest"] => Some(Task::LongestFile),
            ["generate", words @ ..] => Some(Task::Generate { words }),
            ["bench", work, repeats] => {
                let work = Work::from_word(work)?;
                let repeats = repeats.parse().ok()?;
                Some(Task::Bench { work, repeats })
            }
            _ => None,
        }
    }

    fn run(self) -> Result<(), Box<dyn Error>> {
        let mut out = BufWriter::new(io::stdout().lock());
        match self {
            Task::NetlistVectors => vectors_netlist::write_vectors(&mut out)?,
            Task::FileVectors => vectors_files::write_vectors(&mut out)?,
            Task::GeneratedVectors => vectors_generated::write_vectors(&mut out)?,
            Task::InspectVectors => vectors_inspect::write_vectors(&mut out)?,
            Task::GeneratedTour => tour::write_lines(&mut out)?,
            Task::Generate { words } => write_generated(&mut out, words)?,
            Task::LongestFile => out.write_all(&bench::longest_file()?)?,
            Task::Bench { work, repeats } => {
                writeln!(out, "checksum {}", work.repeat(repeats)?)?;
            }
        }
        Ok(out.flush()?)
    }
}

impl Work {
    fn from_word(word: &str) -> Option<Work> {
        match word {
            "netlist" => Some(Work::Settle),
            "files" => Some(Work::Read),
            "check" => Some(Work::Check),
            "generate" => Some(Work::Generate),
            _ => None,
        }
    }

    fn repeat(self, repeats: u64) -> Result<u64, Box<dyn Error>> {
        match self {
            Work::Settle => bench::settle_repeatedly(repeats),
            Work::Read => bench::read_repeatedly(repeats),
            Work::Check => bench::check_repeatedly(repeats),
            Work::Generate => bench::generate_repeatedly(repeats),
        }
    }
}

/// Writes the file that the words ask for, or a line that says why not.
fn write_generated(out: &mut impl Write, words: &[&str]) -> io::Result<()> {
    match generate::generate(words) {
        Answer::File(file) => out.write_all(&file),
        Answer::Refused(refusal) => writeln!(out, "{refusal}"),
        Answer::Usage => writeln!(out, "{}", generate::USAGE),
    }
}

fn main() -> ExitCode {
    let words: Vec<String> = env::args_os()
        .skip(1)
        .map(|word| word.to_string_lossy().into_owned())
        .collect();
    let words: Vec<&str> = words.iter().map(String::as_str).collect();

    let Some(task) = Task::from_words(&words) else {
        eprintln!("{USAGE}");
        return ExitCode::from(2);
    };
    match task.run() {
        Ok(()) => ExitCode::SUCCESS,
        Err(error) => {
            eprintln!("{error}");
            ExitCode::FAILURE
        }
    }
}
