//! Runs every command of the pages that are its arguments, and holds what each prints to what the page says.
//!
//! Commands stand in blocks of the kind `console`, each behind `$ ` and, where it has more lines, these behind `> `. What it prints
//! follows up to the next command or the block's end, standard output and standard error together. A line `...` stands for any lines,
//! and `...` within a line for any characters. One `bash` runs the commands of a page in their order, each with an empty
//! input, in the folder of this process; so variables and background jobs live on to the end of the page, and no further.
//! A command has to end with exit code 0 and within a time, and no page may leave anything behind that `git status` shows.
use std::env::args;
use std::fs::{read_dir, read_to_string};
use std::io::{Read, Write};
use std::os::unix::process::CommandExt;
use std::path::Path;
use std::process::{id, Child, ChildStdin, Command, Output, Stdio};
use std::sync::mpsc::{channel, Receiver, RecvTimeoutError};
use std::thread::{sleep, spawn};
use std::time::{Duration, Instant};
use tests::program::fail;

/// A command has to end within this time.
const LIMIT: Duration = Duration::from_secs(120);

/// What a page has ended at its end may take so long to be gone.
const GRACE: Duration = Duration::from_secs(1);

/// More than a page could show, in bytes and, of a difference, in lines.
const MOST_PRINTED: usize = 1 << 20;
const MOST_SHOWN: usize = 40;

/// Stands for any lines, or within a line for any characters.
const ANYTHING: &str = "...";

/// A command of a page, and the lines that it is to print.
struct Step {
    /// The line of the page.
    line: usize,
    command: String,
    expected: Vec<String>,
}

/// Where a line of a page stands.
#[derive(Clone, Copy, PartialEq)]
enum Place {
    Text,
    /// A block of another kind.
    Block,
    /// A block of commands, at its beginning or behind it.
    Console { is_first: bool },
}

/// The place behind a line that begins or ends a block.
fn place_behind(fence: &str, place: Place) -> Place {
    match (place, fence.trim_matches('`').trim()) {
        (Place::Text, "console") => Place::Console { is_first: true },
        (Place::Text, _) => Place::Block,
        _ => Place::Text,
    }
}

/// The commands of a page, of which every one has to be in a block of commands.
fn steps_of(page: &str) -> Result<Vec<Step>, String> {
    let mut steps = vec![];
    let mut place = Place::Text;
    for (number, line) in (1..).zip(page.lines()) {
        let is_command = line.trim_start().starts_with("$ ");
        place = match place {
            _ if line.starts_with("```") => place_behind(line, place),
            Place::Console { is_first } => take(&mut steps, number, line, is_first)?,
            _ if is_command => return Err(format!("{number}: `{}` is not run: it stands in no block `console`", line.trim())),
            _ => place,
        };
    }
    match place {
        Place::Text => Ok(steps),
        _ => Err("1: the last block does not end".into()),
    }
}

/// Takes a line of a block of commands. The place behind it.
fn take(steps: &mut Vec<Step>, number: usize, line: &str, is_first: bool) -> Result<Place, String> {
    let more = line.strip_prefix("> ").or((line == ">").then_some(""));
    match (line.strip_prefix("$ "), steps.last_mut()) {
        (Some(command), _) => steps.push(Step {
            line: number,
            command: command.into(),
            expected: vec![],
        }),
        (None, Some(last)) if !is_first => match more {
            Some(more) if last.expected.is_empty() => last.command += &format!("\n{more}"),
            _ => last.expected.push(line.into()),
        },
        _ => return Err(format!("{number}: `{line}` begins a block `console`, and no command prints it")),
    }
    Ok(Place::Console { is_first: false })
}

/// Whether what came is these pieces in their order, the first at its beginning and the last at its end, with anything between them.
fn are_pieces<E, C>(pieces: &[&[E]], came: &[C], is_same: &impl Fn(&E, &C) -> bool) -> bool {
    let Some((first, others)) = pieces.split_first() else {
        return came.is_empty();
    };
    let begins = first.len() <= came.len() && first.iter().zip(came).all(|(expected, came)| is_same(expected, came));
    if !begins || others.is_empty() {
        return begins && first.len() == came.len();
    }
    (first.len()..=came.len()).any(|from| are_pieces(others, &came[from..], is_same))
}

fn is_as_expected(expected: &str, came: &str) -> bool {
    let pieces: Vec<&[u8]> = expected.split(ANYTHING).map(str::as_bytes).collect();
    are_pieces(&pieces, came.as_bytes(), &|expected, came| expected == came)
}

fn are_as_expected(expected: &[String], came: &[&str]) -> bool {
    let pieces: Vec<&[String]> = expected.split(|line| line == ANYTHING).collect();
    are_pieces(&pieces, came, &|expected, came| is_as_expected(expected, came))
}

/// Lines behind a sign, the first of them if they are many.
fn shown(sign: char, lines: &[impl AsRef<str>]) -> String {
    let shown = lines.iter().take(MOST_SHOWN).map(|line| format!("{sign} {}\n", line.as_ref()));
    let more = lines.len().saturating_sub(MOST_SHOWN);
    let more = (more > 0).then(|| format!("{sign} (and {more} lines more)\n"));
    shown.chain(more).collect()
}

/// What was expected behind `-` and what came behind `+`, between the lines that are alike at the beginning and at the end.
fn difference(expected: &[String], came: &[&str]) -> String {
    let is_alike = |(expected, came): &(&String, &&str)| *expected != ANYTHING && is_as_expected(expected, came);
    let first = expected.iter().zip(came).take_while(is_alike).count();
    let (expected, differ) = (&expected[first..], &came[first..]);
    let last = expected.iter().rev().zip(differ.iter().rev()).take_while(is_alike).count();
    [
        shown(' ', &came[..first]),
        shown('-', &expected[..expected.len() - last]),
        shown('+', &differ[..differ.len() - last]),
        shown(' ', &differ[differ.len() - last..]),
    ]
    .concat()
}

/// A `bash` that runs the commands of one page, in a process group of its own.
struct Shell {
    bash: Child,
    input: Option<ChildStdin>,
    output: Receiver<Vec<u8>>,
    printed: Vec<u8>,
    commands: usize,
    limit: Duration,
}

impl Shell {
    fn start(folder: &Path, limit: Duration) -> Result<Shell, String> {
        let mut command = Command::new("bash");
        command.current_dir(folder).process_group(0).stdin(Stdio::piped()).stdout(Stdio::piped());
        // A page is the same however wide the terminal is.
        command.env_remove("COLUMNS");
        let mut bash = command.spawn().map_err(|error| format!("bash: {error}"))?;
        let (Some(input), Some(mut output)) = (bash.stdin.take(), bash.stdout.take()) else {
            return Err("bash: no pipes".into());
        };
        let (sender, received) = channel();
        spawn(move || {
            let mut part = vec![0; 1 << 16];
            while let Some(count) = output.read(&mut part).ok().filter(|&count| count > 0) {
                // What nobody waits for any more is let go.
                let _ = sender.send(part[..count].to_vec());
            }
        });
        let mut shell = Shell {
            bash,
            input: Some(input),
            output: received,
            printed: vec![],
            commands: 0,
            limit,
        };
        shell.write("exec 2>&1")?;
        Ok(shell)
    }

    fn write(&mut self, line: &str) -> Result<(), String> {
        let input = self.input.as_mut().ok_or("bash is at its end")?;
        writeln!(input, "{line}").map_err(|error| format!("bash takes no more: {error}"))
    }

    /// What the command prints, and its exit code. A line that no command knows comes behind what each prints.
    fn run(&mut self, command: &str) -> Result<(String, String), String> {
        self.commands += 1;
        let marker = format!("end of command {} in pages {}:", self.commands, id());
        let quoted = command.replace('\'', r"'\''");
        self.write(&format!("eval '{quoted}' </dev/null; printf '\\n%s%d\\n' '{marker}' $?"))?;
        let deadline = Instant::now() + self.limit;
        loop {
            let text = String::from_utf8_lossy(&self.printed);
            let parts = text.split_once(&format!("\n{marker}"));
            if let Some((printed, (code, behind))) = parts.and_then(|(printed, rest)| Some((printed, rest.split_once('\n')?))) {
                let ended = (printed.to_string(), code.to_string());
                self.printed = behind.as_bytes().to_vec();
                return Ok(ended);
            }
            self.receive(deadline)?;
        }
    }

    fn receive(&mut self, deadline: Instant) -> Result<(), String> {
        let left = deadline.saturating_duration_since(Instant::now());
        let failed = match self.output.recv_timeout(left) {
            Ok(part) if self.printed.len() < MOST_PRINTED => {
                self.printed.extend(part);
                return Ok(());
            }
            Ok(_) => "prints more than a page could show".into(),
            Err(RecvTimeoutError::Timeout) => format!("does not end within {:?}", self.limit),
            Err(RecvTimeoutError::Disconnected) => "ends the shell".into(),
        };
        let printed = String::from_utf8_lossy(&self.printed);
        let lines: Vec<&str> = printed.lines().collect();
        Err(format!("{failed}; it printed\n{}", shown('+', &lines)))
    }

    /// The page's end, at which nothing that it began may go on.
    fn end(mut self) -> Result<(), String> {
        drop(self.input.take());
        self.bash.wait().map_err(|error| format!("bash: {error}"))?;
        let deadline = Instant::now() + GRACE;
        loop {
            let running = running_in(self.bash.id());
            if running.is_empty() {
                return Ok(());
            }
            if Instant::now() > deadline {
                return Err(format!("is left running: {}", running.join(", ")));
            }
            sleep(Duration::from_millis(10));
        }
    }
}

impl Drop for Shell {
    /// Whatever happened, nothing of the page goes on.
    fn drop(&mut self) {
        let group = self.bash.id();
        if !running_in(group).is_empty() {
            let _ = Command::new("bash").args(["-c", "kill -KILL -- -$0", &group.to_string()]).status();
        }
        let _ = self.bash.wait();
    }
}

/// The commands of the processes in a group. One that has ended and that nobody has waited for is none.
fn running_in(group: u32) -> Vec<String> {
    let processes = read_dir("/proc").into_iter().flatten().flatten();
    let running = processes.filter_map(|process| {
        let stat = read_to_string(process.path().join("stat")).ok()?;
        // The name in brackets may have anything in it; behind it stand the state, the parent and the group.
        let mut fields = stat.rsplit_once(')')?.1.split_whitespace();
        let is_gone = matches!(fields.next()?, "Z" | "X");
        let is_in = fields.nth(1)? == group.to_string();
        let command = read_to_string(process.path().join("cmdline")).ok()?;
        (is_in && !is_gone).then(|| command.replace('\0', " ").trim_end().to_string())
    });
    running.collect()
}

/// What is changed in the repository of a folder, and what is new and not ignored.
fn status(folder: &Path) -> Result<String, String> {
    let ended = Command::new("git").current_dir(folder).args(["status", "--porcelain", "--untracked-files=all"]).output();
    let Output { status, stdout, stderr } = ended.map_err(|error| format!("git: {error}"))?;
    if !status.success() {
        return Err(format!("git status: {}", String::from_utf8_lossy(&stderr)));
    }
    Ok(String::from_utf8_lossy(&stdout).into_owned())
}

/// What a command does otherwise than the page says, if anything.
fn fault(step: &Step, printed: &str, code: &str) -> Option<String> {
    let came: Vec<&str> = printed.lines().collect();
    if !are_as_expected(&step.expected, &came) {
        return Some(format!("does not print what the page says:\n{}", difference(&step.expected, &came)));
    }
    (code != "0").then(|| format!("ends with exit code {code}\n"))
}

/// Runs the commands of a page. What is not as it says, each fault with the line.
fn run(steps: &[Step], folder: &Path, limit: Duration) -> Result<Vec<String>, String> {
    let mut shell = Shell::start(folder, limit)?;
    let mut faults = vec![];
    for step in steps {
        let told = |fault: String| format!("{}: $ {}\n{fault}", step.line, step.command.replace('\n', "\n> "));
        match shell.run(&step.command) {
            Ok((printed, code)) => faults.extend(fault(step, &printed, &code).map(told)),
            // The shell is gone or busy, and what comes behind on the page cannot be tried.
            Err(error) => return Ok([faults, vec![told(error)]].concat()),
        }
    }
    faults.extend(shell.end().err().map(|left| format!("1: when all commands had ended, something {left}\n")));
    Ok(faults)
}

/// What was changed, if the state of the repository is another.
fn left_behind(before: &str, after: &str) -> Option<String> {
    let expected: Vec<String> = before.lines().map(str::to_string).collect();
    let came: Vec<&str> = after.lines().collect();
    let is_left = before != after;
    is_left.then(|| format!("1: the page leaves something behind:\n{}", difference(&expected, &came)))
}

/// How many commands a page has, and what is not as it says.
fn hold(page: &str, folder: &Path, limit: Duration) -> Result<(usize, Vec<String>), String> {
    let steps = steps_of(page)?;
    let before = status(folder)?;
    let mut faults = run(&steps, folder, limit)?;
    faults.extend(left_behind(&before, &status(folder)?));
    Ok((steps.len(), faults))
}

fn main() {
    let pages: Vec<String> = args().skip(1).collect();
    if pages.is_empty() {
        fail("pages PAGE...");
    }
    let mut commands = 0;
    let mut faults = vec![];
    for name in &pages {
        let page = read_to_string(name).unwrap_or_else(|error| fail(format!("{name}: {error}")));
        let (held, found) = hold(&page, Path::new("."), LIMIT).unwrap_or_else(|fault| (0, vec![fault]));
        commands += held;
        faults.extend(found.iter().map(|fault| format!("{name}:{}", fault.trim_end())));
    }
    if !faults.is_empty() {
        fail(format!("{}\n{} faults in {} pages", faults.join("\n"), faults.len(), pages.len()));
    }
    if commands == 0 {
        fail("there are no commands on these pages");
    }
    println!("{commands} commands in {} pages: all print what the page says", pages.len());
}

#[cfg(test)]
mod tests_of_pages {
    use super::*;
    use std::env::temp_dir;
    use std::fs::{create_dir, remove_dir_all};

    const SHORT: Duration = Duration::from_millis(500);

    /// What is found in a page with this text, in a repository of its own.
    fn found(name: &str, page: &str) -> Result<(usize, Vec<String>), String> {
        let folder = temp_dir().join(format!("pages-{name}-{}", id()));
        create_dir(&folder).expect("a folder");
        let made = Command::new("git").current_dir(&folder).args(["init", "--quiet"]).status();
        assert!(made.expect("git").success());
        let found = hold(page, &folder, SHORT);
        remove_dir_all(&folder).expect("the folder");
        found
    }

    fn console(lines: &str) -> String {
        format!("Text.\n\n```console\n{lines}\n```\n")
    }

    /// The one fault of a page with these lines in its block, and whether it is in the line of the page and says so.
    fn has_fault(name: &str, lines: &str, line: usize, said: &str) {
        let (_, faults) = found(name, &console(lines)).expect("a page");
        let [fault] = &faults[..] else { panic!("{faults:?}") };
        assert!(fault.starts_with(&format!("{line}: ")) && fault.contains(said), "{fault}");
    }

    #[test]
    fn a_page_that_is_right() {
        let lines = "$ word='a  b'\n$ cat <<END\n> $word\n>\n> END\na  b\n\n$ sleep 60 & job=$!\n$ echo 1 2 >&2; seq 9\n1 ...\n...\n8\n9";
        let page = console(lines) + &console("$ echo $word; read; echo $?\na b\n1\n$ kill $job; printf end\nend");
        assert_eq!(found("right", &page), Ok((6, vec![])));
    }

    #[test]
    fn each_fault_is_found() {
        has_fault("output", "$ seq 3\n1\n3\n3", 4, "  1\n- 3\n+ 2\n  3\n");
        has_fault("more", "$ seq 2\n1", 4, "  1\n+ 2\n");
        has_fault("less", "$ true\n1", 4, "- 1\n");
        has_fault("code", "$ true\n$ true | false", 5, "exit code 1");
        has_fault("hang", "$ echo 1; sleep 60\n1", 4, "does not end within 500ms; it printed\n+ 1\n");
        has_fault("endless", "$ yes", 4, "more than a page could show");
        has_fault("exit", "$ exit 0", 4, "ends the shell");
        has_fault("job", "$ (sleep 61 &)", 1, "left running: sleep 61");
        has_fault("file", "$ mkdir new; touch new/file", 1, "+ ?? new/file");
    }

    #[test]
    fn what_is_no_page() {
        let said = |page: &str| steps_of(page).err().unwrap_or_default();
        for kind in ["", "sh", "bash", "text"] {
            let page = console("$ true") + &format!("```{kind}\n  $ echo 1\n```\n");
            assert_eq!(said(&page), "7: `$ echo 1` is not run: it stands in no block `console`");
        }
        assert_eq!(said(&(console("$ true") + &console("1"))), "9: `1` begins a block `console`, and no command prints it");
        assert_eq!(said("```console\n$ true\n"), "1: the last block does not end");
    }

    #[test]
    fn anything_stands_for_anything() {
        let is_same = |expected: &str, came: &str| {
            let expected: Vec<String> = expected.lines().map(str::to_string).collect();
            are_as_expected(&expected, &came.lines().collect::<Vec<&str>>())
        };
        let same = [("...", ""), ("...\n2", "1\n2\n2"), ("1\n...\n3\n...", "1\n3"), ("in ... s", "in 0.12 s"), ("a...a...", "aba")];
        for (expected, came) in same {
            assert!(is_same(expected, came), "{expected:?} {came:?}");
        }
        for (expected, came) in [("", "1"), ("...\n2", "2\n1"), ("1\n...\n1", "1"), ("in ... s", "in 1 s."), ("a...a", "a")] {
            assert!(!is_same(expected, came), "{expected:?} {came:?}");
        }
    }
}
