//! `reference depot` reads standard input and writes what the program `depot` must write for it. `reference jobs FOLDER` writes jobs
//! there, NAME.in, and what `depot` must write for each, NAME.out. `reference soundness` writes what the program `store_soundness`
//! must write. `reference calls` reads a script and writes what the program `store_calls` must write for it. `reference runs` does the
//! same for `list_runs`, and `reference run-cases` writes the script for it. `reference bounds` writes what load bounds cost, as
//! the rows of a table. `reference desk` with a command of the program `desk` does what that must do, on the same files.
use std::env;
use std::ffi::OsString;
use std::fs;
use std::io::{self, Read, Write};
use std::path::Path;
use std::process;

fn main() -> io::Result<()> {
    let arguments: Vec<OsString> = env::args_os().skip(1).collect();
    if arguments.first().map_or(false, |word| word == "desk") {
        process::exit(reference::desk_files::run(&arguments[1..]));
    }
    let words: Vec<String> = arguments.iter().map(|argument| argument.to_string_lossy().into_owned()).collect();
    let output = match words.as_slice() {
        [word] if word == "depot" => reference::job::depot(&input()?),
        [word, folder] if word == "jobs" => jobs(Path::new(folder))?,
        [word] if word == "soundness" => reference::damages::report().into_bytes(),
        [word] if word == "calls" => reference::script::report(&String::from_utf8_lossy(&input()?)).into_bytes(),
        [word] if word == "runs" => reference::runs::told(&String::from_utf8_lossy(&input()?)).into_bytes(),
        [word] if word == "run-cases" => reference::run_cases::script().into_bytes(),
        [word] if word == "bounds" => (reference::bounds::rows().join("\n") + "\n").into_bytes(),
        _ => {
            eprintln!(
                "usage: reference depot <JOB, reference jobs FOLDER, reference soundness, reference calls <SCRIPT,"
            );
            eprintln!("reference runs <SCRIPT, reference run-cases, reference bounds, or reference desk COMMAND ..");
            process::exit(2);
        }
    };
    io::stdout().write_all(&output)
}

fn input() -> io::Result<Vec<u8>> {
    let mut input = Vec::new();
    io::stdin().read_to_end(&mut input)?;
    Ok(input)
}

fn jobs(folder: &Path) -> io::Result<Vec<u8>> {
    let jobs = reference::jobs::all();
    for job in &jobs {
        fs::write(folder.join(format!("{}.in", job.name)), &job.input)?;
        fs::write(folder.join(format!("{}.out", job.name)), &job.output)?;
    }
    Ok(format!("{} jobs\n", jobs.len()).into_bytes())
}
