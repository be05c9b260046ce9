//! Standard input that comes late, in pieces, in part or not at all. Only the end of the input ends a text: where a read fails,
//! nothing is printed, and never the outcome of the front that was read before.
use crate::full_plan;
use crate::process::{described, never_wait, run, run_fed, run_on, run_with, Feeder, Given};
use crate::program::{root, Program, EXEC};
use outside::chance::Chance;
use outside::known;
use outside::plan::MOST_BYTES;
use outside::tally::Group;
use std::fs::{File, OpenOptions};
use std::io::{PipeReader, PipeWriter, Write};
use std::os::unix::net::UnixStream;
use std::process::Stdio;

const INPUT: &str = "standard input";
const WOULD_WAIT: &str = "Resource temporarily unavailable";

pub fn inputs(group: &mut Group, program: &Program) {
    let mut trial = Trial { group, program };
    trial.fronts(&known::cases()[1].0);
    for name in ["update", "clash"] {
        let text = example_text(name);
        trial.single_bytes(&text);
        trial.late(&text);
        trial.without_waiting(&text);
        trial.resets(&text);
    }
    trial.random_pieces(&full_plan());
    trial.long();
    trial.long_without_waiting();
    trial.unreadable();
}

/// The plan of an example. Without it nothing can be tested.
pub fn example_text(name: &str) -> Vec<u8> {
    let path = root().join(format!("examples/{name}.plan"));
    std::fs::read(&path).unwrap_or_else(|error| panic!("{}: {error}", path.display()))
}

/// The places after each line feed but the last: the front up to there is a plan without fault, but another one.
fn line_ends(text: &[u8]) -> Vec<usize> {
    (1..text.len()).filter(|&place| text[place - 1] == b'\n').collect()
}

/// A pipe that holds these bytes. A read fails where it would have to wait.
fn filled_pipe(bytes: &[u8]) -> Result<(PipeReader, PipeWriter), String> {
    let (reader, mut writer) = std::io::pipe().map_err(described)?;
    never_wait(&reader)?;
    never_wait(&writer)?;
    writer.write_all(bytes).map_err(|error| format!("the pipe does not take {} bytes: {error}", bytes.len()))?;
    Ok((reader, writer))
}

/// A program that is tried, and where its cases count.
struct Trial<'a, 'b> {
    group: &'a mut Group<'b>,
    program: &'a Program,
}

impl Trial<'_, '_> {
    /// The outcome of this text is right.
    fn outcome(&mut self, how: &str, text: &[u8], given: Result<Given, String>) {
        let verdict = given.and_then(|given| self.program.outcome(text, &given));
        self.group.case(text, verdict.map_err(|why| format!("{how}: {why}")));
    }

    /// A failure for this reason is right.
    fn failure(&mut self, how: &str, text: &[u8], reason: &str, given: Result<Given, String>) {
        let verdict = given.and_then(|given| self.program.failure(INPUT, reason, &given));
        self.group.case(text, verdict.map_err(|why| format!("{how}: {why}")));
    }

    /// A pipe that is closed early: the front is the text.
    fn fronts(&mut self, text: &[u8]) {
        for cut in 0..=text.len() {
            let front = &text[..cut];
            self.outcome("a pipe closed early", front, run_on(self.program.command(), front));
        }
    }

    /// The rest comes when the program has read the front and waits, or is stopped and continued while it waits.
    fn late(&mut self, text: &[u8]) {
        for cut in line_ends(text) {
            let (front, rest) = text.split_at(cut);
            for stopped in [false, true] {
                let feed = |mut feeder: Feeder| {
                    feeder.give(front);
                    feeder.until_waiting();
                    if stopped {
                        feeder.stop_and_continue();
                    }
                    feeder.give(rest);
                };
                let how = format!("the rest after {cut} bytes comes late, stopped: {stopped}");
                self.outcome(&how, text, run_fed(self.program.command(), feed));
            }
        }
    }

    /// One byte at a time, the next when the last is read.
    fn single_bytes(&mut self, text: &[u8]) {
        let feed = |mut feeder: Feeder| {
            for byte in text {
                feeder.give(&[*byte]);
                feeder.until_taken();
            }
        };
        self.outcome("one byte at a time", text, run_fed(self.program.command(), feed));
    }

    fn random_pieces(&mut self, text: &[u8]) {
        for seed in 31..36 {
            let feed = |mut feeder: Feeder| {
                let (mut chance, mut rest) = (Chance::new(seed), text);
                while !rest.is_empty() {
                    let (piece, others) = rest.split_at((1 + chance.below(9_000)).min(rest.len()));
                    feeder.give(piece);
                    feeder.until_taken();
                    rest = others;
                }
            };
            self.outcome("pieces of up to 9,000 bytes", text, run_fed(self.program.command(), feed));
        }
    }

    /// A pipe that fails a read where it would have to wait. The rest does not come before the program has ended: a program
    /// that waits for it all the same runs out of its time.
    fn without_waiting(&mut self, text: &[u8]) {
        for cut in line_ends(text).into_iter().chain([0, 3, text.len() - 3, text.len()]) {
            let how = format!("only {cut} bytes are there, and a read does not wait");
            let given = self.run_without_waiting(&text[..cut]);
            self.failure(&how, text, WOULD_WAIT, given);
        }
        // Closed before the program starts: all reads find something, or the end.
        let given = filled_pipe(text).and_then(|(reader, writer)| {
            drop(writer);
            run(self.program.command(), reader.into(), |_| ())
        });
        self.outcome("all is there and the pipe is closed, and a read does not wait", text, given);
    }

    /// These bytes are there from the start, and the pipe stays open until the program has ended.
    fn run_without_waiting(&self, there: &[u8]) -> Result<Given, String> {
        let (reader, _writer) = filled_pipe(there)?;
        run(self.program.command(), reader.into(), |_| ())
    }

    /// A socket whose other end is gone after the front, with something unread: the next read fails.
    fn resets(&mut self, text: &[u8]) {
        for cut in line_ends(text).into_iter().chain([0, text.len()]) {
            let how = format!("a connection reset after {cut} bytes");
            self.failure(&how, text, "Connection reset by peer", self.run_reset(&text[..cut]));
        }
    }

    fn run_reset(&self, front: &[u8]) -> Result<Given, String> {
        let (mut near, far) = UnixStream::pair().map_err(described)?;
        near.write_all(b"unread").map_err(described)?;
        let meter = near.try_clone().map_err(described)?;
        run_with(self.program.command(), near.into(), far.into(), meter.into(), |mut feeder| {
            feeder.give(front);
            feeder.until_waiting();
        })
    }

    /// As many bytes as are allowed, one more and far more; then one more, and no end of the input.
    fn long(&mut self) {
        for last in [b'x', b'\n'] {
            for length in [MOST_BYTES - 1, MOST_BYTES, MOST_BYTES + 1] {
                let text = [&b"events\t2\t9\n"[..], &vec![last; length - 11]].concat();
                self.outcome(&format!("{length} bytes"), &text, run_on(self.program.command(), &text));
            }
        }
        let text = [&b"events\t2\t9\n"[..], &b"rule\t0\t1\t0\t5\n".repeat(800_000)].concat();
        self.outcome("10 MB", &text, run_on(self.program.command(), &text));
        let text = vec![b'\n'; MOST_BYTES + 1];
        let feed = |mut feeder: Feeder| {
            feeder.give(&text);
            feeder.until_ended();
        };
        self.outcome("60,001 bytes and no end", &text, run_fed(self.program.command(), feed));
    }

    /// With one byte too many there is nothing more to read; without it, the end has to be seen.
    fn long_without_waiting(&mut self) {
        let text = vec![b'\n'; MOST_BYTES + 1];
        let given = self.run_without_waiting(&text);
        self.outcome("60,001 bytes and no end, and a read does not wait", &text, given);
        let text = vec![b'\n'; MOST_BYTES];
        let given = self.run_without_waiting(&text);
        self.failure("60,000 bytes and no end, and a read does not wait", &text, WOULD_WAIT, given);
    }

    /// Standard inputs that nothing can be read from.
    fn unreadable(&mut self) {
        let run_from =
            |file: std::io::Result<File>| run(self.program.command(), file.map_err(described)?.into(), |_| ());
        let directory = run_from(File::open(root()));
        let for_writing = run_from(OpenOptions::new().write(true).open("/dev/null"));
        let closed = run(self.program.command_by(&format!("{EXEC} <&-")), Stdio::null(), |_| ());
        self.failure("a directory", b"", "Is a directory", directory);
        self.failure("a descriptor for writing", b"", "Bad file descriptor", for_writing);
        self.failure("closed", b"", "Bad file descriptor", closed);
    }
}
