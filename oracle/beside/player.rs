//! The trace programs, and what they print of traces in files.
use crate::traces::Trace;
use std::fs::{self, File};
use std::path::PathBuf;
use std::process::{Child, Command, Stdio};
use std::thread::{self, JoinHandle};
use std::time::{Duration, Instant};

/// A batch takes some seconds; one that takes so long has not ended.
const LIMIT: Duration = Duration::from_secs(300);

const PRINTED: &str = "printed";

pub struct Player {
    /// The folder of `replay` and `replays`.
    programs: PathBuf,
    /// Where the traces are written, and what is printed of them.
    folder: PathBuf,
}

/// What a program printed, how it ended where that is not as it should, and how long it took.
pub struct Played {
    pub text: String,
    pub fault: Option<String>,
    pub time: Duration,
}

/// A program that is running, and then how it ended and how long it took.
pub type Playing = JoinHandle<(Option<String>, Duration)>;

pub fn name(number: usize) -> String {
    format!("trace{number}")
}

impl Player {
    pub fn new(programs: &str, folder: &str) -> Result<Self, String> {
        fs::create_dir_all(folder).map_err(|e| format!("cannot make {folder}: {e}"))?;
        Ok(Player { programs: programs.into(), folder: folder.into() })
    }

    fn file(&self, name: &str) -> PathBuf {
        self.folder.join(name)
    }

    pub fn write(&self, name: &str, bytes: &[u8]) -> Result<String, String> {
        let file = self.file(name);
        fs::write(&file, bytes).map_err(|e| format!("cannot write {}: {e}", file.display()))?;
        Ok(file.display().to_string())
    }

    /// Starts `replays` over all of them.
    pub fn start<'a>(&self, traces: impl Iterator<Item = &'a Trace>) -> Result<Playing, String> {
        let mut names = Vec::new();
        for (number, trace) in traces.enumerate() {
            self.write(&name(number), &trace.bytes)?;
            names.push(name(number));
        }
        self.spawn("replays", &names, Stdio::null())
    }

    /// Starts `replay` with the first of them, which are written, on standard input.
    pub fn start_first(&self) -> Result<Playing, String> {
        let file = self.file(&name(0));
        let trace = File::open(&file).map_err(|e| format!("cannot read {}: {e}", file.display()))?;
        self.spawn("replay", &[], trace.into())
    }

    fn spawn(&self, program: &str, words: &[String], input: Stdio) -> Result<Playing, String> {
        let program = self.programs.join(program);
        let printed = self.file(PRINTED);
        let output = File::create(&printed).map_err(|e| format!("cannot write {}: {e}", printed.display()))?;
        let mut command = Command::new(&program);
        command.args(words).current_dir(&self.folder).stdin(input).stdout(output);
        let child = command.spawn().map_err(|e| format!("cannot start {}: {e}", program.display()))?;
        Ok(thread::spawn(|| watch(child)))
    }

    pub fn end(&self, playing: Playing) -> Result<Played, String> {
        let (fault, time) = playing.join().map_err(|_| "nobody waits for the trace program")?;
        let printed = fs::read(self.file(PRINTED)).map_err(|e| format!("cannot read what was printed: {e}"))?;
        Ok(Played { text: String::from_utf8_lossy(&printed).into_owned(), fault, time })
    }
}

/// Waits for a program's end, but not for ever.
fn watch(mut child: Child) -> (Option<String>, Duration) {
    let begun = Instant::now();
    let fault = loop {
        match child.try_wait() {
            Ok(Some(status)) if status.success() => break None,
            Ok(Some(status)) => break Some(format!("the program ended with {status}")),
            Ok(None) if begun.elapsed() < LIMIT => thread::sleep(Duration::from_millis(5)),
            _ => {
                let _ = child.kill().and_then(|()| child.wait());
                break Some(format!("the program had not ended after {} seconds", begun.elapsed().as_secs()));
            }
        }
    };
    (fault, begun.elapsed())
}

/// The text of each trace, which stands after its name; none where the name does not come.
pub fn texts(printed: &str, count: usize) -> Vec<&str> {
    let (mut texts, mut rest) = (Vec::new(), printed);
    for number in 0..count {
        rest = rest.strip_prefix(&(name(number) + "\n")).unwrap_or("");
        let next = format!("\n{}\n", name(number + 1));
        let end = rest.find(&next).map_or(rest.len(), |at| at + 1);
        let is_named_at_once = rest.starts_with(&next[1..]);
        let (text, after) = rest.split_at(if is_named_at_once { 0 } else { end });
        texts.push(text);
        rest = after;
    }
    texts
}
