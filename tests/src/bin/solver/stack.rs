//! Full plans solved in a thread whose whole stack is small. A stack that is too small ends the process, so another one is
//! started for each.
use crate::{full_plan, full_plan_without_timetable};
use outside::bounds::check_chain;
use outside::library::solver as library;
use outside::outcome::Outcome;
use outside::reader::read;
use outside::second;
use outside::side::{Side, BOTH};
use outside::tally::{same, Group};
use std::process::{Command, ExitCode};

const WORD: &str = "stack";
const KILOBYTES: usize = 128;

/// The kinds of plans that are tried.
const KINDS: [&str; 2] = ["solved", "none"];

/// The kind, the size of the stack and the side, where this process was started for that.
pub fn asked() -> Option<(String, usize, Side)> {
    let words: Vec<String> = std::env::args().collect();
    match words.get(1..) {
        Some([word, kind, kilobytes, rest @ ..]) if word == WORD => {
            let side = BOTH.into_iter().find(|side| side.word() == rest.first().map(String::as_str))?;
            Some((kind.clone(), kilobytes.parse().ok()?, side))
        }
        _ => None,
    }
}

pub fn small_stack(group: &mut Group) {
    for kind in KINDS {
        for side in BOTH {
            group.case(&text_of(kind), run_again(kind, side).map(|()| kind.to_string()));
        }
    }
}

fn text_of(kind: &str) -> Vec<u8> {
    if kind == KINDS[0] {
        full_plan()
    } else {
        full_plan_without_timetable()
    }
}

fn run_again(kind: &str, side: Side) -> Result<(), String> {
    let this = std::env::current_exe().map_err(|error| error.to_string())?;
    let run = Command::new(this).args([WORD, kind, &KILOBYTES.to_string()]).args(side.word()).output();
    let done = run.map_err(|error| error.to_string())?;
    if done.status.success() {
        Ok(())
    } else {
        Err(format!("{side:?} times: {}: {}", done.status, String::from_utf8_lossy(&done.stderr)))
    }
}

/// What that other process does.
pub fn solve(kind: &str, kilobytes: usize, side: Side) -> ExitCode {
    match solve_in_thread(text_of(kind), kilobytes, side) {
        Ok(()) => ExitCode::SUCCESS,
        Err(why) => {
            eprintln!("in a stack of {kilobytes} KB: {why}");
            ExitCode::FAILURE
        }
    }
}

/// The stack also holds the thread's own block (some 4 KB); its guard page lies beyond it. The areas are on the heap, and the
/// outcome is checked outside.
fn solve_in_thread(text: Vec<u8>, kilobytes: usize, side: Side) -> Result<(), String> {
    let lent_text = text.clone();
    let (mut times, mut levels, mut chain) =
        (vec![0; library::TIMES_AREA], vec![0; library::LEVELS_AREA], vec![0; library::CHAIN_AREA]);
    let work = move || (library::solve(side, &lent_text, &mut times, &mut levels, &mut chain), times, levels, chain);
    let thread = std::thread::Builder::new().stack_size(kilobytes * 1024).spawn(work);
    let ended = thread.map_err(|error| error.to_string())?.join();
    let ((number, place), times, mut levels, chain) = ended.map_err(|_| "the thread failed")?;
    let plan = read(&text).map_err(|refusal| format!("refused {refusal:?}"))?;
    match second::solve(&plan) {
        Some(right) => {
            same("number", 0, number)?;
            levels.truncate(place);
            same("outcome", right.on(side), &Outcome::Solved { times, levels })
        }
        None => {
            same("number", 1, number)?;
            check_chain(&plan, &chain[..place]).map(|_| ())
        }
    }
}
