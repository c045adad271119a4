//! A terminal, as the system makes one for a window: what is typed at it, and what stands on it.
use std::ffi::{c_char, c_int, CStr};
use std::fs::{File, OpenOptions};
use std::io::{Error, Read, Result, Write};
use std::os::fd::{AsRawFd, FromRawFd};
use std::os::unix::fs::OpenOptionsExt;
use std::process::{Child, Command, ExitStatus};
use std::sync::mpsc::{channel, Receiver};
use std::thread::{sleep, spawn};
use std::time::{Duration, Instant};

/// What is waited for comes much sooner.
const LIMIT: Duration = Duration::from_secs(20);

// Linux's numbers: for reading and writing, and not to be the terminal of this process.
const READ_AND_WRITE: c_int = 0o2;
const NOT_OURS: c_int = 0o400;

extern "C" {
    fn posix_openpt(flags: c_int) -> c_int;
    fn grantpt(terminal: c_int) -> c_int;
    fn unlockpt(terminal: c_int) -> c_int;
    fn ptsname_r(terminal: c_int, name: *mut c_char, length: usize) -> c_int;
}

/// Its two sides: that of whoever sits at it, and that of the programs.
fn sides() -> Result<(File, File)> {
    let mut name = [0; 64];
    // SAFETY: the file is owned by nobody else, and the name has as many characters as is said, with a zero behind what is written.
    let (ours, name) = unsafe {
        let number = posix_openpt(READ_AND_WRITE | NOT_OURS);
        if number < 0 {
            return Err(Error::last_os_error());
        }
        let ours = File::from_raw_fd(number);
        let is_made = grantpt(number) == 0 && unlockpt(number) == 0 && ptsname_r(ours.as_raw_fd(), name.as_mut_ptr(), name.len()) == 0;
        if !is_made {
            return Err(Error::last_os_error());
        }
        (ours, CStr::from_ptr(name.as_ptr()))
    };
    let path = name.to_str().map_err(Error::other)?;
    let theirs = OpenOptions::new().read(true).write(true).custom_flags(NOT_OURS).open(path)?;
    Ok((ours, theirs))
}

/// A program at a terminal of its own.
pub struct Terminal {
    ours: File,
    child: Child,
    written: Receiver<Vec<u8>>,
    /// What was written since it was last looked at.
    since: String,
    /// All that was written.
    pub all: String,
}

impl Terminal {
    /// The program's standard output is the terminal too, if no other is given.
    pub fn start(mut command: Command, output: Option<File>) -> Result<Terminal> {
        let (ours, theirs) = sides()?;
        let output = output.map_or(theirs.try_clone(), Ok)?;
        let child = command.stdin(theirs.try_clone()?).stdout(output).stderr(theirs).spawn()?;
        let mut from = ours.try_clone()?;
        let (sender, written) = channel();
        spawn(move || {
            let mut part = vec![0; 1 << 16];
            // It fails when the program has ended.
            while let Ok(count) = from.read(&mut part) {
                let _ = sender.send(part[..count].to_vec());
            }
        });
        let (since, all) = (String::new(), String::new());
        Ok(Terminal { ours, child, written, since, all })
    }

    pub fn type_in(&mut self, text: &str) -> Result<()> {
        self.ours.write_all(text.as_bytes())
    }

    /// What is written up to these words, since it was last looked at.
    pub fn up_to(&mut self, words: &str) -> Result<String> {
        let deadline = Instant::now() + LIMIT;
        loop {
            if let Some(place) = self.since.find(words) {
                let behind = self.since.split_off(place + words.len());
                return Ok(std::mem::replace(&mut self.since, behind));
            }
            let left = deadline.saturating_duration_since(Instant::now());
            let part = self.written.recv_timeout(left).map_err(|_| Error::other(format!("no `{words}` in `{}`", self.since)))?;
            let part = String::from_utf8_lossy(&part).into_owned();
            self.since += &part;
            self.all += &part;
        }
    }

    /// The program's end, and all that it wrote.
    pub fn end(mut self) -> Result<(ExitStatus, String)> {
        let deadline = Instant::now() + LIMIT;
        let status = loop {
            if let Some(status) = self.child.try_wait()? {
                break status;
            }
            if Instant::now() > deadline {
                self.child.kill().and_then(|()| self.child.wait())?;
                return Err(Error::other(format!("no end behind `{}`", self.all)));
            }
            sleep(Duration::from_millis(1));
        };
        self.all.extend(self.written.iter().map(|part| String::from_utf8_lossy(&part).into_owned()));
        Ok((status, self.all))
    }
}

/// The lines that stand on a terminal when this has been written to it: what is written over is gone.
pub fn screen(written: &str) -> Vec<String> {
    written.replace("\r\n", "\n").lines().map(line_of).collect()
}

fn line_of(written: &str) -> String {
    let mut line: Vec<char> = vec![];
    for part in written.split('\r') {
        let part: Vec<char> = part.chars().collect();
        let behind = line.split_off(part.len().min(line.len()));
        line = [part, behind].concat();
    }
    line.into_iter().collect::<String>().trim_end().into()
}
