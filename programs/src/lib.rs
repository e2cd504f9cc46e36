//! The proved programs as commands. Each stands in its command as one call, by which it runs to its end and answers
//! its exit status; here the streams are looked at first.

use std::ffi::c_int;

use cli::Failure;

extern "C" {
    /// The proved program's own start, which reads the arguments of the process by itself.
    fn proved_program() -> c_int;
}

/// What that start calls to have a pipe without a reader spared: the command leaves the signal as it is.
#[no_mangle]
pub extern "C" fn proved_program_signal(_number: c_int, _handler: usize) -> usize {
    0
}

/// Runs the proved program, which reads standard input, writes standard output and says on standard error
/// what failed: its exit status.
pub fn play() -> Result<u8, Failure> {
    cli::input()?;
    cli::output()?;
    cli::let_pipes_end_it();
    // It takes nothing, and runs once.
    let status = unsafe { proved_program() };
    Ok(u8::try_from(status).unwrap_or(1))
}
