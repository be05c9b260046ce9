//! Reads of the program `timetable` that a signal interrupts, which are tried again, and that fail, at every place of a text.
//! `reads.c`, loaded before the C library, answers them; that its answers reach the program is seen where they are failures.
use crate::example::compile;
use crate::process::{run_on, Given};
use crate::program::Program;
use outside::known;
use outside::tally::Group;
use std::path::Path;

pub fn answered(group: &mut Group, program: &Program) {
    let source = "tests/src/bin/solver/reads.c";
    let library = match compile("reads.so", &["-std=c99", "-shared", "-fPIC", source]) {
        Ok(library) => library,
        Err(why) => return group.case(b"", Err(why)),
    };
    let text = &known::cases()[1].0;
    for place in 0..=text.len() {
        for (then, fails) in [("i", false), ("iii", false), ("ibi", false), ("e", true), ("ie", true)] {
            let letters = "b".repeat(place) + then;
            let verdict = run_with(program, &library, &letters, text).and_then(|given| match fails {
                true => program.failure("standard input", "Input/output error", &given),
                false => program.outcome(text, &given),
            });
            group.case(text, verdict.map_err(|why| format!("reads {letters}: {why}")));
        }
    }
}

fn run_with(program: &Program, library: &Path, letters: &str, text: &[u8]) -> Result<Given, String> {
    let mut command = program.command();
    command.env("LD_PRELOAD", library).env("READS", letters);
    run_on(command, text)
}
