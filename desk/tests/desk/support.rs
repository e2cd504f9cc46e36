//! What the tests share.

use std::fs;
use std::io::{BufRead, BufReader, Write};
use std::os::unix::process::ExitStatusExt;
use std::path::{Path, PathBuf};
use std::process::{Child, Command, Output, Stdio};
use std::sync::mpsc::{self, Receiver};
use std::thread;
use std::time::Duration;

use fugu::{Node, SIZE};

pub const DESK: &str = env!("CARGO_BIN_EXE_desk");

/// A script that changes the memory, and its listing at power-on.
pub const SCRIPT: &str = "S,1\nA,1,7\nT,256\n";
pub const LISTING: &str =
    "line,answer,value,trap,upcall,moved\n1,0,0,0,0,0\n2,0,0,0,1,0\n3,0,0,3,0,1\n";

/// A folder of a test's own, which goes with it.
pub struct Folder(PathBuf);

impl Folder {
    pub fn new(test: &str) -> Folder {
        let folder = Path::new(env!("CARGO_TARGET_TMPDIR")).join(test);
        let _ = fs::remove_dir_all(&folder);
        fs::create_dir_all(&folder).expect("the folder is made");
        Folder(folder)
    }

    pub fn path(&self, name: &str) -> PathBuf {
        self.0.join(name)
    }

    /// The names that stand in it.
    pub fn names(&self) -> Vec<String> {
        let entries = fs::read_dir(&self.0).expect("the folder is read");
        let mut names: Vec<_> = entries
            .map(|entry| entry.expect("the folder is read").file_name())
            .map(|name| name.into_string().expect("the name is text"))
            .collect();
        names.sort();
        names
    }
}

impl Drop for Folder {
    fn drop(&mut self) {
        let _ = fs::remove_dir_all(&self.0);
    }
}

/// A desk that no signal is kept from, whatever runs the tests.
pub fn command(options: &[&str], file: &Path) -> Command {
    let mut command = Command::new("env");
    command
        .args(["--default-signal=HUP,INT,TERM", DESK])
        .args(options)
        .arg(file);
    command
}

pub fn piped(command: &mut Command) -> Child {
    command
        .stdin(Stdio::piped())
        .stdout(Stdio::piped())
        .stderr(Stdio::piped())
        .spawn()
        .expect("desk starts")
}

/// A desk in a conversation, whose lines come while it waits.
pub struct Talk {
    pub child: Child,
    lines: Receiver<String>,
}

impl Talk {
    /// One that has its file: the header has come.
    pub fn begin(file: &Path) -> Talk {
        Talk::by(&mut command(&[], file))
    }

    pub fn by(command: &mut Command) -> Talk {
        let mut child = piped(command);
        let output = BufReader::new(child.stdout.take().expect("the output is piped"));
        let (sender, lines) = mpsc::channel();
        thread::spawn(move || {
            for line in output.lines().map_while(Result::ok) {
                // Read on also where no more is asked for: the desk is not to fail.
                let _ = sender.send(line);
            }
        });
        let talk = Talk { child, lines };
        talk.answered("line,answer,value,trap,upcall,moved");
        talk
    }

    pub fn say(&mut self, bytes: &[u8]) {
        let input = self.child.stdin.as_mut().expect("the input is piped");
        input.write_all(bytes).expect("the desk reads");
    }

    pub fn answered(&self, listed: &str) {
        let line = self.lines.recv_timeout(Duration::from_secs(20));
        assert_eq!(line.as_deref(), Ok(listed));
    }

    /// The desk plays the script, and waits for more.
    pub fn plays(&mut self) {
        self.say(SCRIPT.as_bytes());
        for line in LISTING.lines().skip(1) {
            self.answered(line);
        }
    }

    /// The desk ends, its script open.
    pub fn end_later(mut self) -> Output {
        let input = self.child.stdin.take();
        let output = self.child.wait_with_output().expect("desk ends");
        drop(input);
        output
    }

    /// The script ends.
    pub fn end(self) -> Output {
        self.child.wait_with_output().expect("desk ends")
    }
}

pub fn desk(file: &Path, script: impl AsRef<[u8]>) -> Output {
    desk_with(&[], file, script)
}

pub fn desk_with(options: &[&str], file: &Path, script: impl AsRef<[u8]>) -> Output {
    let mut child = piped(&mut command(options, file));
    let mut input = child.stdin.take().expect("the input is piped");
    // One that is refused may be gone before it is written to.
    let _ = input.write_all(script.as_ref());
    drop(input);
    child.wait_with_output().expect("desk ends")
}

/// Played, with this listing and no message.
pub fn listed(output: &Output, listing: &str) {
    assert_eq!(String::from_utf8_lossy(&output.stderr), "");
    assert_eq!(output.status.code(), Some(0));
    assert_eq!(String::from_utf8_lossy(&output.stdout), listing);
}

/// Ended with status 1 and one line that says this.
pub fn failed(output: &Output, message: &str) {
    assert_eq!(output.status.code(), Some(1));
    told(output, message);
}

/// One line on standard error says this.
pub fn told(output: &Output, message: &str) {
    let told = String::from_utf8_lossy(&output.stderr);
    assert!(
        told.starts_with("desk: ") && told.contains(message) && !told.contains("os error"),
        "{told}"
    );
    assert_eq!(told.lines().count(), 1, "{told}");
}

/// Ended by a signal, and without a word.
pub fn ended_by(output: &Output, signal: i32) {
    assert_eq!(String::from_utf8_lossy(&output.stderr), "");
    assert_eq!(output.status.signal(), Some(signal));
}

pub fn bytes(memory: &[u32]) -> Vec<u8> {
    memory.iter().flat_map(|word| word.to_le_bytes()).collect()
}

/// The memory after a script from power-on.
pub fn after(script: &str) -> Vec<u32> {
    let mut node = Node::power_on(vec![0; SIZE]).expect("the memory is long enough");
    for line in script.lines() {
        node.line(line.as_bytes());
    }
    node.into_memory()
}
