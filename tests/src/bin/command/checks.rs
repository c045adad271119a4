//! The command as it is run, and what is held of it.
use std::env::{temp_dir, var_os};
use std::fs::{create_dir_all, remove_dir_all, set_permissions, write, Permissions};
use std::io::{Error, Result as IoResult};
use std::os::unix::fs::PermissionsExt;
use std::path::{Path, PathBuf};
use std::process::{id, Command, Output};
use tests::program::run;

/// Names the session program to the command.
pub const VARIABLE: &str = "WELSBELL_PROGRAM";

/// Counts what is held, and goes on where something is not as it has to be, so that one run finds all of it.
#[derive(Default)]
pub struct Checks {
    pub held: u64,
    pub faults: Vec<String>,
}

impl Checks {
    pub fn hold(&mut self, what: &str, held: Result<(), String>) {
        self.held += 1;
        self.faults.extend(held.err().map(|fault| format!("{what}: {fault}")));
    }

    /// Says that all is as it should be, where it is so.
    pub fn tell(&self, said: String) {
        if self.faults.is_empty() {
            println!("{said}");
        }
    }
}

/// How the command came to its end, and what it wrote.
#[derive(Debug)]
pub struct Ended {
    pub code: Option<i32>,
    pub out: String,
    pub err: String,
}

impl Ended {
    /// Each of these stands in what was written, and where there are none, nothing was.
    pub fn hold(&self, code: i32, out: &[&str], err: &[&str]) -> Result<(), String> {
        let has = |text: &str, words: &[&str]| words.iter().all(|word| text.contains(word)) && text.is_empty() == words.is_empty();
        let is_held = self.code == Some(code) && has(&self.out, out) && has(&self.err, err);
        let expected = format!("expected code {code}, out {out:?}, err {err:?}");
        if is_held { self.hold_plain() } else { Err(format!("{expected}\n    came {self:?}")) }
    }

    /// In a pipe there is no prompt, no bar, no colour, and no character that moves a terminal's cursor.
    pub fn hold_plain(&self) -> Result<(), String> {
        let is_control = |c: char| c.is_control() && c != '\n';
        let has_prompt = self.out.lines().any(|line| line.starts_with("> "));
        let is_plain = !has_prompt && !self.out.contains(is_control) && !self.err.contains(is_control);
        if is_plain { Ok(()) } else { Err(format!("is not plain: {self:?}")) }
    }
}

impl From<Output> for Ended {
    /// What is no UTF-8 shows as a control character, so that it is not plain.
    fn from(output: Output) -> Ended {
        let text = |bytes: Vec<u8>| String::from_utf8(bytes).unwrap_or_else(|_| "\0 no UTF-8".into());
        Ended {
            code: output.status.code(),
            out: text(output.stdout),
            err: text(output.stderr),
        }
    }
}

/// The command under test, with a folder for files.
pub struct Welsbell {
    pub path: PathBuf,
    /// The session program.
    pub program: PathBuf,
    pub folder: PathBuf,
}

impl Welsbell {
    pub fn at(path: &str) -> IoResult<Welsbell> {
        let path = Path::new(path).canonicalize()?;
        let usual = path.parent().map(|folder| folder.join("../../target/bin/session_main"));
        let program = var_os(VARIABLE).map(PathBuf::from).or(usual).ok_or(Error::other("no session program"))?;
        let folder = temp_dir().join(format!("welsbell-{}", id()));
        create_dir_all(&folder)?;
        Ok(Welsbell { path, program, folder })
    }

    /// The command with arguments, between which stand spaces.
    pub fn command(&self, arguments: &str) -> Command {
        let mut command = Command::new(&self.path);
        command.args(arguments.split_whitespace());
        command
    }

    /// A program in the folder: lines for the shell.
    pub fn script(&self, name: &str, lines: &str) -> IoResult<PathBuf> {
        let path = self.folder.join(name);
        write(&path, format!("#!/bin/sh\n{lines}\n"))?;
        set_permissions(&path, Permissions::from_mode(0o755))?;
        Ok(path)
    }

    pub fn ended(&self, arguments: &str, input: impl Into<Vec<u8>>) -> Result<Ended, String> {
        ended(&mut self.command(arguments), input)
    }
}

impl Drop for Welsbell {
    fn drop(&mut self) {
        let _ = remove_dir_all(&self.folder);
    }
}

pub fn ended(command: &mut Command, input: impl Into<Vec<u8>>) -> Result<Ended, String> {
    run(command, vec![input.into()]).map(Ended::from).map_err(|error| error.to_string())
}

/// What the command has to be told where the first line that has something in it does not look like a frame.
pub fn option_for(input: &[u8]) -> &'static str {
    let first = input.split(|&byte| byte == b'\n').map(|line| line.trim_ascii()).find(|line| !line.is_empty());
    let is_like_a_frame = |line: &[u8]| line.iter().all(u8::is_ascii_hexdigit) && line.iter().any(u8::is_ascii_digit);
    if first.is_some_and(is_like_a_frame) {
        ""
    } else {
        "--frames"
    }
}

/// All numbers in a text, in their order. A comma between two digits only groups them.
pub fn numbers(text: &str) -> Vec<u64> {
    let is_digit = |place: Option<usize>| place.and_then(|place| text.as_bytes().get(place)).is_some_and(u8::is_ascii_digit);
    let groups = |place: usize| is_digit(place.checked_sub(1)) && is_digit(Some(place + 1));
    let plain = text.char_indices().filter(|&(place, c)| c != ',' || !groups(place));
    let plain: String = plain.map(|(_, c)| c).collect();
    plain.split(|c: char| !c.is_ascii_digit()).filter_map(|digits| digits.parse().ok()).collect()
}
