//! `listochur`, the operator's command: see README.md.
use std::env;
use std::process::ExitCode;
use std::thread;

/// Runs before Rust's own start, which puts /dev/null in the place of a stream that is closed.
#[used]
#[unsafe(link_section = ".init_array")]
static LOOK: extern "C" fn() = command::streams::look;

/// What the work may use of the stack. A proved function uses up to 512 KiB, and the first thread may have less.
const STACK: usize = 4 << 20;

fn main() -> ExitCode {
    let work = || command::run(&env::args_os().skip(1).collect::<Vec<_>>());
    let ended = thread::Builder::new().stack_size(STACK).spawn(work).map(thread::JoinHandle::join);
    match ended {
        Ok(Ok(status)) => ExitCode::from(status as u8),
        // a fault of this command, said by Rust
        Ok(Err(_)) => ExitCode::from(command::Status::Failed as u8),
        Err(error) => {
            command::streams::say(&format!("no thread: {error}"));
            ExitCode::from(command::Status::Failed as u8)
        }
    }
}
