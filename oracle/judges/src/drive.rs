//! What the programs of the oracle share: answering a script line by line, and their command lines.
use std::io::{BufRead, BufReader, BufWriter, Write};
use std::process::ExitCode;

use crate::script::{Judge, parse_line};

/// Answers the script on standard input, line by line. A malformed line ends it with status 2; all answers before it
/// are written.
pub fn drive(judge: &mut dyn Judge) -> Result<(), String> {
    let mut input = BufReader::new(std::io::stdin());
    let mut output = BufWriter::new(std::io::stdout());
    let mut line = Vec::new();
    for number in 1.. {
        line.clear();
        if input.read_until(b'\n', &mut line).map_err(|e| e.to_string())? == 0 {
            break;
        }
        let parsed = str::from_utf8(&line).map_err(|_| "no text".to_string()).and_then(parse_line);
        let last = input.buffer().is_empty() || parsed.is_err();
        let answer = parsed.as_ref().ok().and_then(|call| call.as_ref()).map(|call| judge.call(call));
        let written = answer.map_or(Ok(()), |a| writeln!(output, "{a}"));
        written.and_then(|_| if last { output.flush() } else { Ok(()) }).map_err(|e| e.to_string())?;
        parsed.map_err(|error| format!("line {number}: {error}"))?;
    }
    output.flush().map_err(|e| e.to_string())
}

/// A number of the command line.
pub fn number(word: &str) -> Result<u64, String> {
    word.parse().map_err(|_| format!("{word} is no number"))
}

/// Does what the command line asks for. Status 0 where it went well, 1 where a test failed, 2 where nothing could be done.
pub fn exit(run: fn(&[&str]) -> Result<bool, String>) -> ExitCode {
    let args: Vec<String> = std::env::args().skip(1).collect();
    match run(&args.iter().map(String::as_str).collect::<Vec<_>>()) {
        Ok(true) => ExitCode::SUCCESS,
        Ok(false) => ExitCode::FAILURE,
        Err(error) => {
            eprintln!("{error}");
            ExitCode::from(2)
        },
    }
}
