//! `reference desk`: the commands of the program `desk` on the same files, with the same output and status.
use crate::bytes::Last;
use crate::desk::{self, Unfit};
use crate::lists::Limits;
use crate::report::MOST_STORES;
use crate::rules::Bounds;
use std::ffi::{OsStr, OsString};
use std::fs::{self, File, OpenOptions};
use std::io::{self, ErrorKind, Read, Write};
use std::os::unix::ffi::OsStrExt;
use std::os::unix::io::AsFd;
use std::path::{Path, PathBuf};

/// What a command writes to standard output, and how it ended.
#[derive(Clone, Debug, PartialEq, Eq)]
pub struct Said {
    pub out: Vec<u8>,
    /// A sentence for standard error, without its LF; empty where there is nothing to say.
    pub err: Vec<u8>,
    pub status: i32,
}

impl Said {
    fn done(out: impl Into<Vec<u8>>) -> Said {
        Said { out: out.into(), err: Vec::new(), status: 0 }
    }

    fn refused(out: impl Into<Vec<u8>>, err: impl Into<Vec<u8>>) -> Said {
        Said { out: out.into(), err: err.into(), status: 1 }
    }

    /// Done and saved, and maybe there is something to see to.
    fn saved(out: impl Into<Vec<u8>>, told: Option<Vec<u8>>) -> Said {
        let status = if told.is_some() { 2 } else { 0 };
        Said { out: out.into(), err: told.unwrap_or_default(), status }
    }
}

/// Done, or a command that ends early.
type Command = Result<Said, Said>;

const STOPPED: &str =
    "desk: done, but the job has stopped before a line whose answer did not fit; send the rest from that line on";

/// Runs a command, writes what it says, and gives its status.
pub fn run(arguments: &[OsString]) -> i32 {
    let Said { out, mut err, mut status } = told(arguments, &mut stream(&io::stdin()));
    if let Err(error) = stream(&io::stdout()).write_all(&out) {
        (err, status) = unwritten(arguments, &error);
    }
    if !err.is_empty() {
        err.push(b'\n');
        // Where standard error fails too, the status still tells.
        let _ = io::stderr().write_all(&err);
    }
    status
}

/// A standard stream as a file. The library's own takes a descriptor that cannot be read or written for an empty one.
fn stream(standard: &impl AsFd) -> File {
    standard.as_fd().try_clone_to_owned().map(File::from).expect("an open descriptor")
}

/// A job and a new store are saved by then; the other commands have done nothing.
fn unwritten(arguments: &[OsString], error: &io::Error) -> (Vec<u8>, i32) {
    let why = because(error);
    let saves = arguments.first().map_or(false, |word| word == "job" || word == "new");
    if saves {
        (format!("desk: done, but cannot write the answers{why}; desk last FILE shows them").into(), 2)
    } else {
        (format!("desk: cannot write to standard output{why}. Nothing was done; try again").into(), 1)
    }
}

/// What a command says, with this standard input.
pub fn told(arguments: &[OsString], input: &mut impl Read) -> Said {
    let words: Vec<&[u8]> = arguments.iter().map(|argument| argument.as_bytes()).collect();
    let path = |at: usize| Path::new(&arguments[at]);
    let command = match words[..] {
        [] => Ok(Said::done(desk::USAGE)),
        [b"new", _, cards, faults] => new(path(1), [cards, faults, b"4", b"2"]),
        [b"new", _, cards, faults, upper, lower] => new(path(1), [cards, faults, upper, lower]),
        [b"job", _] => job(path(1), input),
        [b"check", _] => check(path(1)),
        [b"report", ..] if (1..=MOST_STORES).contains(&(words.len() - 1)) => report(&arguments[1..]),
        [b"last", _] => last(path(1)),
        _ => Err(Said::refused("", desk::USAGE.trim_end())),
    };
    command.unwrap_or_else(|early| early)
}

// ---- the commands

fn new(path: &Path, arguments: [&[u8]; 4]) -> Command {
    let [cards, faults, upper, lower] = arguments.map(desk::value);
    let file = desk::fresh(Limits { cards, faults }, Bounds { upper, lower })
        .map_err(|number| Said::refused(format!("{number}\n"), desk::refusal(number)))?;
    let held = Held::lock(path)?;
    if fs::symlink_metadata(path).is_ok() {
        return Err(Said::refused("", named(path, " is there already. Nothing was done")));
    }
    // Answers that were saved beside an earlier file of this name are not this one's.
    let _ = fs::remove_file(with(path, ".last"));
    Ok(Said::saved("0\n", held.save(&file)?))
}

fn job(path: &Path, input: &mut impl Read) -> Command {
    let mut text = Vec::new();
    input
        .read_to_end(&mut text)
        .map_err(|error| failed("cannot read", Path::new("standard input"), &error, "Send the whole job again"))?;
    let held = Held::lock(path)?;
    let file = load(path)?;
    let served = desk::served(&file, &text);
    if served.number != 0 && served.number != 10 {
        return Err(Said::refused(served.answers, explained(path, &file, served.number)));
    }
    let mut told = None;
    if served.file != file {
        keep_last(path, &Last { file: served.file.clone(), answers: served.answers.clone() })?;
        told = held.save(&served.file)?;
    }
    let stopped = (served.number == 10).then(|| STOPPED.into());
    Ok(Said::saved(served.answers, told.or(stopped)))
}

/// Why a job was refused by 3 or 13.
fn explained(path: &Path, file: &[u8], number: u32) -> Vec<u8> {
    match number {
        13 => "desk: the job has more than 16384 bytes. Nothing was done".into(),
        _ => named(path, desk::store(file).err().unwrap_or(Unfit::Words).says()),
    }
}

fn check(path: &Path) -> Command {
    let store = desk::store(&load(path)?).map_err(|unfit| Said::refused("not sound\n", named(path, unfit.says())))?;
    Ok(Said::done(desk::held(&store)))
}

fn report(paths: &[OsString]) -> Command {
    let files = paths.iter().map(|path| load(Path::new(path))).collect::<Result<Vec<_>, _>>()?;
    let text = desk::reported(&files)
        .map_err(|(place, unfit)| Said::refused("", named(Path::new(&paths[place]), unfit.says())))?;
    Ok(Said::done(text))
}

fn last(path: &Path) -> Command {
    let file = load(path)?;
    let beside = with(path, ".last");
    let last = fs::read(&beside).map_err(|error| match error.kind() {
        ErrorKind::NotFound => Said::refused("", around("desk: there are no saved answers for ", path, "")),
        _ => failed("cannot read", &beside, &error, "See to its folder and its rights"),
    })?;
    let answers = desk::last_answers(&file, &last).ok_or_else(|| Said::refused("", stale(path)))?;
    Ok(Said::done(answers))
}

fn stale(path: &Path) -> Vec<u8> {
    let behind = " as it stands: the job they belong to was not saved, or ";
    let first = around("desk: the saved answers are not those of ", path, behind);
    [&first[..], path.as_os_str().as_bytes(), b" was changed otherwise"].concat()
}

// ---- files

fn load(path: &Path) -> Result<Vec<u8>, Said> {
    fs::read(path).map_err(|error| failed("cannot read", path, &error, "See to its name and its rights"))
}

/// FILE.new, which this command alone has made: the lock, and the file that takes FILE's name. It goes where it is not renamed.
struct Held<'a> {
    path: &'a Path,
    name: PathBuf,
    file: File,
    renamed: bool,
}

impl<'a> Held<'a> {
    fn lock(path: &'a Path) -> Result<Held<'a>, Said> {
        let name = with(path, ".new");
        match OpenOptions::new().write(true).create_new(true).open(&name) {
            Ok(file) => Ok(Held { path, name, file, renamed: false }),
            Err(error) if error.kind() == ErrorKind::AlreadyExists => Err(Said::refused("", taken(path, &name))),
            Err(error) => Err(failed("cannot make", &name, &error, "See to the folder and its rights")),
        }
    }

    /// What is to be said where the file is saved and its folder could not be synced.
    fn save(mut self, bytes: &[u8]) -> Result<Option<Vec<u8>>, Said> {
        let saved = self.fill(bytes);
        saved.map_err(|error| failed("cannot save", self.path, &error, "Make room and try again"))?;
        self.renamed = true;
        let unsynced = |error| around("desk: done, but cannot sync the folder of ", self.path, &because(&error));
        Ok(sync_folder(self.path).err().map(unsynced))
    }

    fn fill(&mut self, bytes: &[u8]) -> io::Result<()> {
        like(self.path, &self.file)?;
        self.file.write_all(bytes)?;
        self.file.sync_all()?;
        fs::rename(&self.name, self.path)
    }
}

impl Drop for Held<'_> {
    fn drop(&mut self) {
        if !self.renamed {
            let _ = fs::remove_file(&self.name);
        }
    }
}

/// FILE.last as a job leaves it, in its place before FILE is.
fn keep_last(path: &Path, last: &Last) -> Result<(), Said> {
    let (name, made) = (with(path, ".last"), with(path, ".last.new"));
    let kept = fill_last(path, &made, &last.bytes()).and_then(|()| fs::rename(&made, &name));
    kept.and_then(|()| sync_folder(path)).map_err(|error| {
        let _ = fs::remove_file(&made);
        failed("cannot save", &name, &error, "Make room and try again")
    })
}

fn fill_last(path: &Path, made: &Path, bytes: &[u8]) -> io::Result<()> {
    let mut file = File::create(made)?;
    like(path, &file)?;
    file.write_all(bytes)?;
    file.sync_all()
}

/// A file that is made for FILE has the mode of FILE, where FILE is there.
fn like(path: &Path, file: &File) -> io::Result<()> {
    fs::metadata(path).map_or(Ok(()), |found| file.set_permissions(found.permissions()))
}

fn sync_folder(path: &Path) -> io::Result<()> {
    let folder = path.parent().filter(|folder| *folder != Path::new("")).unwrap_or_else(|| Path::new("."));
    File::open(folder)?.sync_all()
}

/// The name with this behind it.
fn with(path: &Path, end: &str) -> PathBuf {
    let mut name = path.as_os_str().to_owned();
    name.push(OsStr::new(end));
    PathBuf::from(name)
}

// ---- sentences

fn around(before: &str, path: &Path, behind: &str) -> Vec<u8> {
    [before.as_bytes(), path.as_os_str().as_bytes(), behind.as_bytes()].concat()
}

fn named(path: &Path, says: &str) -> Vec<u8> {
    around("desk: ", path, says)
}

fn taken(path: &Path, name: &Path) -> Vec<u8> {
    [
        around("desk: ", name, " is there: another desk is at work, or one was cut off. Nothing was done. "),
        around("If none is at work, remove ", name, "; "),
        around("desk last ", path, " shows what was answered last"),
    ]
    .concat()
}

/// A call of the system that failed before anything was done.
fn failed(what: &str, path: &Path, error: &io::Error, advice: &str) -> Said {
    let behind = format!("{}. Nothing was done. {advice}", because(error));
    Said::refused("", around(&format!("desk: {what} "), path, &behind))
}

/// The text of errno alone, behind a colon.
fn because(error: &io::Error) -> String {
    let text = error.to_string();
    format!(": {}", text.split(" (os error").next().unwrap_or_default())
}
