//! The second program: PC-MAC-AES, the library's calls and its programs, written a second time from the documents
//! alone, to question the library with.

mod aes;
mod bodies;
mod bodies_fresh;
mod bodies_run;
mod bodies_stored;
mod book;
mod check;
mod compare;
mod corpus;
mod fault;
mod field;
mod forms;
mod hex;
mod inner;
mod inputs;
mod inputs_fresh;
mod inputs_run;
mod inputs_spare;
mod inputs_stored;
mod library;
mod made;
mod pcmac;
mod probe;
mod questions_encode;
mod questions_frames;
mod questions_keys;
mod questions_lines;
mod questions_messages;
mod questions_order;
mod questions_spare;
mod questions_spoilt;
mod questions_streams;
mod questions_writer;
mod random;
mod send;
mod spare;
mod week;
mod writer;

use std::io::{self, Read, Write};
use std::path::Path;
use std::process::ExitCode;

const USAGE: &str = "usage:
    second answer probe|check|send   what probe, check or send must write for standard input
    second corpus DIR                the stored corpus, in the folders of the repository
    second fresh SEED DIR            a fresh set of questions and inputs, with their answers
    second spare DIR                 inputs of check with spare bits set, at every tag length that has them
    second compare probe|check|send QUESTIONS ANSWERS SAID
                                     answers of the second program against those of a program
    second fault FILE DIR            puts a stored fault into a copy of the sources";

fn answer(answers: fn(&[u8]) -> String) -> io::Result<()> {
    let mut input = Vec::new();
    io::stdin().read_to_end(&mut input)?;
    io::stdout().write_all(answers(&input).as_bytes())
}

fn run(words: &[&str]) -> io::Result<()> {
    match words {
        ["answer", "probe"] => answer(probe::answer_all),
        ["answer", "check"] => answer(check::answer_all),
        ["answer", "send"] => answer(send::answer_all),
        ["corpus", folder] => corpus::stored(Path::new(folder)),
        ["fresh", seed, folder] => match seed.parse() {
            Ok(seed) => corpus::fresh(seed, Path::new(folder)),
            Err(_) => Err(io::Error::other("the seed is a number below 2^64")),
        },
        ["spare", folder] => corpus::spare(Path::new(folder)),
        ["compare", program @ ("probe" | "check" | "send"), questions, answers, said] => {
            compare::compare(program, [questions, answers, said].map(Path::new))
        }
        ["fault", file, folder] => fault::put(Path::new(file), Path::new(folder)),
        _ => Err(io::Error::other(USAGE)),
    }
}

fn main() -> ExitCode {
    let words: Vec<String> = std::env::args().skip(1).collect();
    let words: Vec<&str> = words.iter().map(String::as_str).collect();
    match run(&words) {
        Ok(()) => ExitCode::SUCCESS,
        Err(error) => {
            eprintln!("second: {error}");
            ExitCode::FAILURE
        }
    }
}
