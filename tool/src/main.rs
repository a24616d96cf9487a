//! The program `stobbarel`: standard input and the words behind its name, to standard output and an exit code.
use std::io::{self, Read, Write};
use stobbarel_tool::told;

fn standard_input() -> io::Result<Vec<u8>> {
    let mut input = Vec::new();
    io::stdin().lock().read_to_end(&mut input)?;
    Ok(input)
}

fn main() {
    let words: Vec<String> = std::env::args_os().skip(1).map(|word| word.to_string_lossy().into_owned()).collect();
    let outcome = told(&words, standard_input);
    // Whoever reads may have seen enough and gone; then nobody is there to be told.
    let heard = io::stdout().write_all(&outcome.out).and_then(|()| io::stdout().flush());
    let heard = heard.and_then(|()| io::stderr().write_all(outcome.wrong.as_bytes()));
    std::process::exit(if heard.is_err() { 1 } else { outcome.code });
}
