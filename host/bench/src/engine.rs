//! CLIPS as a process that is told commands, one a line, and answers in lines.

use std::error::Error;
use std::io::{BufRead, BufReader, ErrorKind, Write};
use std::path::Path;
use std::process::{Child, ChildStdin, ChildStdout, Command, Stdio};

/// What Debian's package of the same name installs.
const PROGRAM: &str = "clips";
/// CLIPS, told commands from a file, which has no prompt. At the end of its input it would ask for more for ever, so `(exit)`
/// comes after all that it is told, however this program ends.
const TOLD: &str = "trap '' INT; { cat; echo '(exit)'; } | clips -f2 /dev/stdin";
/// Prints the seconds of so many firings from the start, by the clock of CLIPS; loading and starting are not in them.
const TIMED: &str = "(deffunction timed (?firings)
  (begin)
  (bind ?from (time))
  (run ?firings)
  (bind ?to (time))
  (printout t (- ?to ?from) crlf))";
/// Has firings told, and changes of the clock where there is one.
const WATCH: &str = "(watch rules)
(if (member$ clock (get-deftemplate-list)) then (watch facts clock))";
/// The line after which there is no more of an answer.
const END: &str = "end";

/// Why there is no answer.
pub type Failure = Box<dyn Error>;

/// A process of CLIPS with a program.
pub struct Clips {
    child: Child,
    /// Closed at the end, by which the process ends.
    commands: Option<ChildStdin>,
    answers: BufReader<ChildStdout>,
}

/// How CLIPS calls itself, with its version; nothing if it is not on this machine.
pub fn version() -> Result<Option<String>, Failure> {
    let mut child = match Command::new(PROGRAM).stdin(Stdio::piped()).stdout(Stdio::piped()).spawn() {
        Err(failure) if failure.kind() == ErrorKind::NotFound => return Ok(None),
        started => started.map_err(|failure| format!("CLIPS cannot be started: {failure}"))?,
    };
    child.stdin.take().ok_or("CLIPS has no input")?.write_all(b"(exit)\n")?;
    let said = String::from_utf8_lossy(&child.wait_with_output()?.stdout).into_owned();
    match said.lines().next().unwrap_or("").trim() {
        banner if banner.starts_with("CLIPS") => Ok(Some(banner.to_string())),
        other => Err(format!("the program `{PROGRAM}` is not CLIPS: it says '{other}'").into()),
    }
}

impl Clips {
    /// Starts CLIPS in a folder, without a program.
    pub fn start(folder: &Path) -> Result<Clips, Failure> {
        let mut shell = Command::new("sh");
        shell.args(["-c", TOLD]).current_dir(folder).stdin(Stdio::piped()).stdout(Stdio::piped());
        let mut child = shell.spawn()?;
        let commands = child.stdin.take();
        let answers = BufReader::new(child.stdout.take().ok_or("CLIPS has no output")?);
        let mut clips = Clips { child, commands, answers };
        clips.ask("(unwatch all)")?;
        Ok(clips)
    }

    /// Takes a program that has a function `begin`.
    pub fn take(&mut self, program: &str) -> Result<(), Failure> {
        let said = self.ask(&format!("{program}\n{TIMED}"))?;
        match said.iter().find(|line| !line.trim().is_empty()) {
            None => Ok(()),
            Some(complaint) => Err(format!("CLIPS does not take the program: {complaint}").into()),
        }
    }

    /// Writes the program that is stored as text anew, as what CLIPS loads quicker: its own binary image.
    pub fn save_binary(&mut self, text: &str, binary: &str) -> Result<(), Failure> {
        // It warns of constraints, of which there are none; that all is there shows when the image is run.
        self.ask(&format!("(clear)\n(load* \"{text}\")\n(bsave \"{binary}\")"))?;
        Ok(())
    }

    /// What CLIPS tells of its first firings, and of each change of the clock.
    pub fn trace(&mut self, firings: u32) -> Result<Vec<String>, Failure> {
        self.ask(&format!("(begin)\n{WATCH}\n(run {firings})\n(unwatch all)"))
    }

    /// Nanoseconds of so many firings from the start, by the clock of CLIPS.
    pub fn timed(&mut self, firings: u32) -> Result<f64, Failure> {
        match self.numbers(&format!("(timed {firings})"))?[..] {
            [seconds] => Ok(seconds * 1e9),
            _ => Err("CLIPS does not say how long it took".into()),
        }
    }

    /// Nanoseconds of loading a program by a command, starting it, and so many firings; what was there is cleared before.
    pub fn timed_whole(&mut self, load: &str, firings: u32) -> Result<f64, Failure> {
        // `begin` is found when it is called: before it is loaded there is no such function. No variable outlives a reset.
        let whole = format!("(printout t (time) crlf) {load} (funcall begin) (run {firings}) (printout t (time) crlf)");
        match self.numbers(&format!("(clear)\n(progn {whole})"))?[..] {
            [from, to] => Ok((to - from) * 1e9),
            _ => Err("CLIPS does not say when it began and ended".into()),
        }
    }

    /// The answers to commands that answer nothing but numbers.
    fn numbers(&mut self, commands: &str) -> Result<Vec<f64>, Failure> {
        let lines = self.ask(commands)?;
        let numbers: Result<Vec<f64>, _> = lines.iter().map(|line| line.trim().parse()).collect();
        numbers.map_err(|_| format!("CLIPS does not say how long it took, but '{}'", lines.join(" / ")).into())
    }

    /// Gives commands, and takes all that is said until they are done.
    fn ask(&mut self, commands: &str) -> Result<Vec<String>, Failure> {
        let input = self.commands.as_mut().ok_or("CLIPS has no input")?;
        let answers = &mut self.answers;
        let text = format!("{commands}\n(printout t {END} crlf)\n");
        // Both at once: CLIPS may wait until its answers are taken, before it takes all commands.
        std::thread::scope(|scope| {
            let given = scope.spawn(move || input.write_all(text.as_bytes()));
            let lines = until_end(answers);
            given.join().map_err(|_| "no commands could be given to CLIPS")??;
            lines
        })
    }
}

/// The lines before the one that ends an answer.
fn until_end(answers: &mut impl BufRead) -> Result<Vec<String>, Failure> {
    let mut lines = Vec::new();
    for line in answers.lines() {
        match line? {
            line if line == END => return Ok(lines),
            line => lines.push(line),
        }
    }
    Err(format!("CLIPS ended before it was told to, and said last '{}'", lines.join(" / ")).into())
}

impl Drop for Clips {
    fn drop(&mut self) {
        drop(self.commands.take());
        // Nothing is left to be done if it cannot be waited for.
        let _ = self.child.wait();
    }
}
