//! Standard output that does not take the outcome, or only a front of it: the program says so.
use crate::full_plan;
use crate::input::example_text;
use crate::process::{described, never_wait, run, run_on, Given};
use crate::program::{root, Program, EXEC};
use outside::tally::{same, Group};
use std::fs::{File, OpenOptions};
use std::io::Write;
use std::process::{Command, Stdio};

const OUTPUT: &str = "standard output";
const FULL_DEVICE: &str = "/dev/full";

/// The size that a file may have at most, in bytes: one unit of `ulimit -f`.
const MOST_SIZE: usize = 512;

pub fn outputs(group: &mut Group, program: &Program) {
    for text in [example_text("update"), example_text("clash"), b"events\n".to_vec(), full_plan()] {
        let mut failure = |how: &str, reason: &str, given: Result<Given, String>| {
            let verdict = given.and_then(|given| program.failure(OUTPUT, reason, &given));
            group.case(&text, verdict.map_err(|why| format!("{how}: {why}")));
        };
        failure("a full device", "No space left on device", on_full_device(program).and_then(|to| run_on(to, &text)));
        failure("closed", "Bad file descriptor", run_on(program.command_by(&format!("{EXEC} >&-")), &text));
        failure("a full pipe", "Resource temporarily unavailable", on_full_pipe(program, &text));
        failure("a pipe without a reader", "Broken pipe", on_broken_pipe(program, &text));
    }
    group.case(&full_plan(), cut_off(program, &full_plan()).map_err(|why| format!("a file that takes a front: {why}")));
    group.case(b"", both_fail(program).map_err(|why| format!("a directory in, a full device out: {why}")));
}

/// The device has to be there: without it nothing is tested.
fn on_full_device(program: &Program) -> Result<Command, String> {
    let device = OpenOptions::new().write(true).open(FULL_DEVICE);
    let mut command = program.command();
    command.stdout(device.map_err(|error| format!("{FULL_DEVICE}: {error}"))?);
    Ok(command)
}

/// A write to the pipe fails where it would have to wait.
fn on_full_pipe(program: &Program, text: &[u8]) -> Result<Given, String> {
    let (_reader, mut writer) = std::io::pipe().map_err(described)?;
    never_wait(&writer)?;
    while writer.write(&[b' '; 4_096]).is_ok() {}
    let mut command = program.command();
    command.stdout(writer);
    run_on(command, text)
}

/// The signal that goes with it is ignored: a program of an older kit was ended by it.
fn on_broken_pipe(program: &Program, text: &[u8]) -> Result<Given, String> {
    let (reader, writer) = std::io::pipe().map_err(described)?;
    drop(reader);
    let mut command = program.command_by(&format!("trap '' PIPE && {EXEC}"));
    command.stdout(writer);
    run_on(command, text)
}

/// The file takes a front of the outcome: the program goes on after the first write, and says that the second failed.
fn cut_off(program: &Program, text: &[u8]) -> Result<String, String> {
    let path = std::env::current_exe().map_err(described)?.with_file_name("cut-off-output");
    let mut command = program.command_by(&format!("trap '' XFSZ && ulimit -f 1 && {EXEC}"));
    command.stdout(File::create(&path).map_err(described)?);
    let given = run_on(command, text)?;
    let written = std::fs::read_to_string(&path).map_err(described)?;
    same("the file", &program.wanted(text, "")?[..MOST_SIZE], &written)?;
    program.failure(OUTPUT, "File too large", &given)
}

/// A failed read is the one thing said: nothing was to be written.
fn both_fail(program: &Program) -> Result<String, String> {
    let directory: Stdio = File::open(root()).map_err(described)?.into();
    let given = run(on_full_device(program)?, directory, |_| ())?;
    program.failure("standard input", "Is a directory", &given)
}
