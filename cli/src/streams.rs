//! The standard streams as files: each is looked at before it is used, and a failure names it.
//!
//! The library's own streams take a closed one, and one that was opened the other way, for an empty one.

use std::ffi::c_int;
use std::fmt;
use std::fs::File;
use std::io::{self, ErrorKind, Read, Write};
use std::os::fd::AsFd;
use std::process::ExitCode;
use std::sync::atomic::{AtomicU32, Ordering};

const STDIN: c_int = 0;
const STDOUT: c_int = 1;

const F_GETFD: c_int = 1;
const F_GETFL: c_int = 3;
const O_ACCMODE: c_int = 3;
const O_RDONLY: c_int = 0;
const O_WRONLY: c_int = 1;
const EBADF: c_int = 9;
pub const SIGPIPE: c_int = 13;
const SIG_DFL: usize = 0;

extern "C" {
    fn fcntl(descriptor: c_int, command: c_int, ...) -> c_int;
    fn signal(number: c_int, handler: usize) -> usize;
    fn raise(number: c_int) -> c_int;
}

/// Which descriptors were closed when the program began: a bit for each. The library opens them on nothing
/// before `main`, so that they are looked at before that.
static CLOSED: AtomicU32 = AtomicU32::new(0);

#[used]
#[link_section = ".init_array"]
static LOOKED_AT_FIRST: extern "C" fn() = look_at_first;

extern "C" fn look_at_first() {
    for descriptor in [STDIN, STDOUT] {
        // It asks only whether there is such a descriptor.
        if unsafe { fcntl(descriptor, F_GETFD) } < 0 {
            CLOSED.fetch_or(1 << descriptor, Ordering::Relaxed);
        }
    }
}

/// Whether a descriptor was open when the program began, and not only the other way.
fn look_at(descriptor: c_int, wrong_way: c_int) -> io::Result<()> {
    let closed = CLOSED.load(Ordering::Relaxed) >> descriptor & 1 == 1;
    // It reads the flags of a descriptor.
    let way = unsafe { fcntl(descriptor, F_GETFL) } & O_ACCMODE;
    if closed || way == wrong_way {
        return Err(io::Error::from_raw_os_error(EBADF));
    }
    Ok(())
}

/// What failed of a stream.
#[derive(Debug)]
struct Failed {
    stream: &'static str,
    error: io::Error,
}

impl fmt::Display for Failed {
    fn fmt(&self, f: &mut fmt::Formatter<'_>) -> fmt::Result {
        write!(f, "{}: {}", self.stream, self.error)
    }
}

impl std::error::Error for Failed {}

fn named(stream: &'static str) -> impl Fn(io::Error) -> io::Error {
    move |error| io::Error::new(error.kind(), Failed { stream, error })
}

const INPUT: &str = "standard input";
const OUTPUT: &str = "standard output";

/// Standard input, as it is read without a buffer.
pub struct Input(File);

/// Standard output, as it is written without a buffer.
pub struct Output(File);

/// Standard input, where it can be read.
pub fn input() -> io::Result<Input> {
    let file = look_at(STDIN, O_WRONLY).and_then(|()| io::stdin().as_fd().try_clone_to_owned());
    file.map(|file| Input(file.into())).map_err(named(INPUT))
}

/// Standard output, where it can be written.
pub fn output() -> io::Result<Output> {
    let file = look_at(STDOUT, O_RDONLY).and_then(|()| io::stdout().as_fd().try_clone_to_owned());
    file.map(|file| Output(file.into())).map_err(named(OUTPUT))
}

impl Read for Input {
    fn read(&mut self, bytes: &mut [u8]) -> io::Result<usize> {
        match self.0.read(bytes) {
            // It is asked again by whoever reads on, and tells nothing.
            Err(error) if error.kind() == ErrorKind::Interrupted => Err(error),
            read => read.map_err(named(INPUT)),
        }
    }
}

impl Write for Output {
    fn write(&mut self, bytes: &[u8]) -> io::Result<usize> {
        match self.0.write(bytes) {
            Err(error) if error.kind() == ErrorKind::Interrupted => Err(error),
            written => written.map_err(named(OUTPUT)),
        }
    }

    fn flush(&mut self) -> io::Result<()> {
        Ok(())
    }
}

/// From now on a pipe without a reader ends the program that writes to it: the library has it spared.
pub fn let_pipes_end_it() {
    // A plain call; there is no handler.
    unsafe { signal(SIGPIPE, SIG_DFL) };
}

/// Whether standard output failed since its reader has gone away.
pub fn reader_is_gone(error: &io::Error) -> bool {
    let failed = error
        .get_ref()
        .and_then(|inner| inner.downcast_ref::<Failed>());
    failed.is_some_and(|failed| failed.stream == OUTPUT) && error.kind() == ErrorKind::BrokenPipe
}

/// Ends the program by a signal, as it ends one that doesn't ask to be spared.
pub fn end_by(number: c_int) -> ExitCode {
    // Both are plain calls; the second does not come back.
    unsafe {
        signal(number, SIG_DFL);
        raise(number);
    }
    ExitCode::FAILURE
}
