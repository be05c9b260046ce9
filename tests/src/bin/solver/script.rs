//! The script examples/run, with an `rt` before the toolchain's own that proves nothing.
use crate::example::example_printed;
use crate::process::{described, run, Given};
use crate::program::root;
use outside::tally::{same, Group};
use std::ffi::OsString;
use std::os::unix::fs::PermissionsExt;
use std::path::Path;
use std::process::{Command, Stdio};

/// What the script says before it starts `rt`.
const FIRST: &str = "The program is proved and built first; that takes minutes the first time.\n";
const RT_FAILS: &str = "#!/bin/sh\necho not proved\necho refused >&2\nexit 3\n";
const RT_PROVES: &str = "#!/bin/sh\necho proved\n";

pub fn script(group: &mut Group) {
    let mut case = |rt: &str, words: &[&str], out: &str, err: &str, status: i32| {
        let verdict = run_script(rt, words).and_then(|given| compare(out, err, status, &given));
        group.case(b"", verdict.map_err(|why| format!("words {words:?}: {why}")));
    };
    let (latest, earliest) = (example_printed("update.out"), example_printed("update.earliest.out"));
    case(RT_FAILS, &["/"], "", "/: Is a directory\n", 2);
    case(RT_FAILS, &["no.plan"], "", "no.plan: No such file or directory\n", 2);
    case(RT_FAILS, &[""], "", ": No such file or directory\n", 2);
    case(RT_FAILS, &["earliest"], "", "earliest: No such file or directory\n", 2);
    case(RT_FAILS, &[], "", &format!("{FIRST}not proved\nrefused\n"), 1);
    case(RT_PROVES, &[], &latest, FIRST, 0);
    case(RT_PROVES, &["update.plan", "earliest"], &earliest, FIRST, 0);
    case(RT_PROVES, &["update.plan", "earliest", "latest"], &earliest, FIRST, 0);
    // The words are handed on as they are: none is parted, joined or left out.
    case(RT_PROVES, &["update.plan", "earliest latest"], &latest, FIRST, 0);
    case(RT_PROVES, &["update.plan", "", "earliest"], &latest, FIRST, 0);
    case(RT_PROVES, &["clash.plan"], &example_printed("clash.out"), FIRST, 0);
    case(RT_PROVES, &["clash.plan", "earliest"], &example_printed("clash.out"), FIRST, 0);
    case(RT_PROVES, &["clash.out"], "refused\t2\t1\n", FIRST, 0);
    case(RT_PROVES, &["clash.out", "earliest"], "refused\t2\t1\n", FIRST, 0);
}

/// Runs the script in the folder of the plans.
fn run_script(rt: &str, words: &[&str]) -> Result<Given, String> {
    let folder = std::env::current_exe().map_err(described)?.with_file_name("rt-before");
    put_program(&folder, rt).map_err(described)?;
    let mut path = OsString::from(folder);
    path.push(":");
    path.push(std::env::var_os("PATH").unwrap_or_default());
    let mut command = Command::new("bash");
    command.arg("run").args(words).env("PATH", path).current_dir(root().join("examples")).stdout(Stdio::piped());
    run(command, Stdio::null(), |_| ())
}

fn put_program(folder: &Path, rt: &str) -> std::io::Result<()> {
    std::fs::create_dir_all(folder)?;
    std::fs::write(folder.join("rt"), rt)?;
    std::fs::set_permissions(folder.join("rt"), PermissionsExt::from_mode(0o755))
}

fn compare(out: &str, err: &str, status: i32, given: &Given) -> Result<String, String> {
    same("standard output", out, &given.out)?;
    same("standard error", err, &given.err)?;
    same("exit status", Some(status), given.status)?;
    Ok(format!("status {status}"))
}
