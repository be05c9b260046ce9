//! The C example over include/timetable.h: compiled, linked with the library, and run on files that are named, with and without
//! the word that asks for the earliest times.
use crate::input::example_text;
use crate::process::{described, run, run_on, Given};
use crate::program::{root, Program};
use outside::side::Sides;
use outside::tally::Group;
use std::path::PathBuf;
use std::process::{Command, Stdio};

/// Compiles what stands in the repository, with warnings as errors; the result stands beside the tests' own programs.
pub fn compile(name: &str, words: &[&str]) -> Result<PathBuf, String> {
    let result = std::env::current_exe().map_err(described)?.with_file_name(name);
    let flags = ["-O2", "-Wall", "-Wextra", "-pedantic", "-Werror"];
    let mut cc = Command::new("cc");
    cc.args(flags).arg("-o").arg(&result).args(words).current_dir(root());
    let done = cc.output().map_err(|error| format!("cc: {error}"))?;
    if done.status.success() {
        Ok(result)
    } else {
        Err(format!("cc failed: {}", String::from_utf8_lossy(&done.stderr)))
    }
}

pub fn c_program() -> Result<Program, String> {
    let words = ["-std=c99", "-Iinclude", "examples/solve.c", "target/staticlib/libsolver.a"];
    Ok(Program::new(compile("solve-example", &words)?, true))
}

/// An example plan, what is printed for it on each side, and what the C example adds to that.
const EXAMPLES: [(&str, Sides<&str>, &str); 2] = [
    ("update", Sides { latest: "update.out", earliest: "update.earliest.out" }, ""),
    ("clash", Sides { latest: "clash.out", earliest: "clash.out" }, "5 ticks short\n"),
];

/// What cannot be read. Words that are nearly the one that asks for the earliest times name files.
const UNREADABLE: [(&str, &str); 6] = [
    ("/", "Is a directory"),
    ("/no/such.plan", NO_SUCH_FILE),
    ("./earliest", NO_SUCH_FILE),
    ("earlier", NO_SUCH_FILE),
    ("Earliest", NO_SUCH_FILE),
    ("earliest ", NO_SUCH_FILE),
];
const NO_SUCH_FILE: &str = "No such file or directory";

/// The example plans as standard input and as files; then files that cannot be read. A word behind a file's name is left alone.
pub fn plans(group: &mut Group, program: &Program) {
    for (name, printed, last_line) in EXAMPLES {
        let (path, plan) = (format!("examples/{name}.plan"), example_text(name));
        let wanted = example_printed(printed.on(program.side)) + last_line;
        let alone = run_on(program.command(), &plan);
        for given in [alone, named(program, &[&path]), named(program, &[&path, "earliest"])] {
            group.case(&plan, given.and_then(|given| program.printed(&wanted, &given)));
        }
    }
    let refused = named(program, &["examples/update.out"]);
    group.case(b"", refused.and_then(|given| program.printed("refused\t2\t1\n", &given)));
    for (name, reason) in UNREADABLE {
        let given = named(program, &[name]);
        group.case(b"", given.and_then(|given| program.failure(name, reason, &given)));
    }
}

/// What stands in the repository as printed. A file that is missing fails the case.
pub fn example_printed(file: &str) -> String {
    std::fs::read_to_string(root().join("examples").join(file)).unwrap_or_default()
}

/// Run in the folder of the repository, with further words.
fn named(program: &Program, words: &[&str]) -> Result<Given, String> {
    let mut command = program.command();
    command.args(words).current_dir(root());
    run(command, Stdio::null(), |_| ())
}
