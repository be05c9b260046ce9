//! Programs as processes: each is started with a given standard input and output, fed by a thread beside it, and has to end
//! within a time.
use std::ffi::{c_int, c_ulong};
use std::fs::File;
use std::io::{Read, Write};
use std::os::fd::{AsRawFd, OwnedFd};
use std::process::{Child, Command, ExitStatus, Stdio};
use std::sync::atomic::{AtomicBool, Ordering};
use std::time::{Duration, Instant};

/// How long a program may run.
const MOST_TIME: Duration = Duration::from_secs(30);

/// Between two looks at a program.
const MOMENT: Duration = Duration::from_micros(50);

// What Linux calls them.
const F_SETFL: c_int = 4;
const O_NONBLOCK: c_int = 0o4000;
const FIONREAD: c_ulong = 0x541b;
const SIGCONT: c_int = 18;
const SIGSTOP: c_int = 19;

extern "C" {
    fn fcntl(descriptor: c_int, command: c_int, ...) -> c_int;
    fn ioctl(descriptor: c_int, request: c_ulong, ...) -> c_int;
    fn kill(process: c_int, signal: c_int) -> c_int;
}

/// What a program gave until it ended.
pub struct Given {
    pub out: String,
    pub err: String,
    pub status: Option<i32>,
}

/// A program that runs, or did.
pub struct Process {
    id: c_int,
    ended: AtomicBool,
}

/// The writing end of a program's standard input. It is closed when the feeder is dropped.
pub struct Feeder<'a> {
    end: File,
    /// Tells how many bytes are not yet read.
    meter: OwnedFd,
    process: &'a Process,
}

/// Gives the whole text through a pipe, and closes it.
pub fn run_on(command: Command, text: &[u8]) -> Result<Given, String> {
    run_fed(command, |mut feeder| feeder.give(text))
}

/// Starts the command on a pipe that `feed` writes to.
pub fn run_fed(command: Command, feed: impl FnOnce(Feeder) + Send) -> Result<Given, String> {
    let (reader, writer) = std::io::pipe().map_err(described)?;
    let meter = writer.try_clone().map_err(described)?.into();
    run_with(command, reader.into(), writer.into(), meter, feed)
}

/// Starts the command on this input, whose writing end `feed` gets. A pipe's meter is that end, a socket's the other one.
pub fn run_with(
    command: Command,
    input: OwnedFd,
    end: OwnedFd,
    meter: OwnedFd,
    feed: impl FnOnce(Feeder) + Send,
) -> Result<Given, String> {
    run(command, input.into(), |process| feed(Feeder { end: end.into(), meter, process }))
}

/// Starts the command with this standard input, does `feed` beside it, and returns what it gave.
pub fn run(mut command: Command, input: Stdio, feed: impl FnOnce(&Process) + Send) -> Result<Given, String> {
    let started = command.stdin(input).stderr(Stdio::piped()).spawn();
    // The command still holds the program's ends of the pipes.
    drop(command);
    let mut child = started.map_err(described)?;
    let process = Process { id: child.id() as c_int, ended: AtomicBool::new(false) };
    let (status, fed) = std::thread::scope(|scope| {
        let feeder = scope.spawn(|| feed(&process));
        let status = end_of(&mut child);
        process.ended.store(true, Ordering::SeqCst);
        (status, feeder.join())
    });
    fed.map_err(|_| "the feeder failed")?;
    Ok(Given { out: all_of(child.stdout), err: all_of(child.stderr), status: status?.code() })
}

pub fn described(error: std::io::Error) -> String {
    error.to_string()
}

fn end_of(child: &mut Child) -> Result<ExitStatus, String> {
    let start = Instant::now();
    while start.elapsed() < MOST_TIME {
        if let Some(status) = child.try_wait().map_err(described)? {
            return Ok(status);
        }
        std::thread::sleep(MOMENT);
    }
    child.kill().and_then(|()| child.wait()).map_err(described)?;
    Err(format!("still ran after {} seconds", MOST_TIME.as_secs()))
}

/// What is left in a pipe of a program that has ended; nothing where its output went elsewhere.
fn all_of(pipe: Option<impl Read>) -> String {
    let mut bytes = Vec::new();
    if let Some(mut pipe) = pipe {
        let _ = pipe.read_to_end(&mut bytes);
    }
    String::from_utf8_lossy(&bytes).into_owned()
}

/// From now on a read or write at this end fails where it would have to wait.
pub fn never_wait(end: &impl AsRawFd) -> Result<(), String> {
    // SAFETY: F_SETFL takes one whole number.
    match unsafe { fcntl(end.as_raw_fd(), F_SETFL, O_NONBLOCK) } {
        0 => Ok(()),
        _ => Err(described(std::io::Error::last_os_error())),
    }
}

impl Process {
    /// Waits until the program has ended.
    pub fn until_ended(&self) {
        while !self.ended.load(Ordering::SeqCst) {
            std::thread::sleep(MOMENT);
        }
    }

    fn signal(&self, signal: c_int) {
        // SAFETY: two whole numbers. The program waits for its input, so the number is still its own.
        unsafe { kill(self.id, signal) };
    }
}

impl Feeder<'_> {
    /// A program that has ended may leave the rest unread: that is no failure.
    pub fn give(&mut self, bytes: &[u8]) {
        let _ = self.end.write_all(bytes);
    }

    /// Waits until the program has read everything that was given, and has had the time to ask for more.
    pub fn until_waiting(&self) {
        self.until_taken();
        std::thread::sleep(Duration::from_millis(5));
    }

    pub fn until_taken(&self) {
        while self.unread() > 0 && !self.process.ended.load(Ordering::SeqCst) {
            std::thread::sleep(MOMENT);
        }
    }

    fn unread(&self) -> c_int {
        let mut count: c_int = 0;
        // SAFETY: FIONREAD stores one whole number.
        match unsafe { ioctl(self.meter.as_raw_fd(), FIONREAD, &mut count) } {
            0 => count,
            _ => panic!("FIONREAD: {}", std::io::Error::last_os_error()),
        }
    }

    pub fn until_ended(&self) {
        self.process.until_ended();
    }

    /// Stops the program for a while.
    pub fn stop_and_continue(&self) {
        self.process.signal(SIGSTOP);
        std::thread::sleep(Duration::from_millis(5));
        self.process.signal(SIGCONT);
    }
}
