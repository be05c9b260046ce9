//! The programs that print outcomes, and what is right of what they give: the printed form of the right outcome, or for a
//! failure one line on standard error. Then the words that they are started with.
use crate::full_plan;
use crate::process::{run_on, Given};
use outside::bounds::check_chain;
use outside::chance::Chance;
use outside::outcome::{printed, printed_refusal, Outcome};
use outside::reader::read;
use outside::side::Side;
use outside::tally::{same, Group};
use outside::{damage, generate, known, limits, second};
use std::ffi::{OsStr, OsString};
use std::fmt::Debug;
use std::os::unix::ffi::OsStrExt;
use std::path::{Path, PathBuf};
use std::process::{Command, Stdio};

/// The stack that programs are run with, in kilobytes.
const STACK: usize = 256;

/// The bytes of the longest word that Linux hands to a program.
const LONGEST_WORD: usize = 131_071;

/// What a shell says to become the program.
pub const EXEC: &str = "exec \"$0\" \"$@\"";

/// A program that reads a plan text from standard input and prints its outcome.
pub struct Program {
    path: PathBuf,
    /// The C example: its exit status tells the outcome, and a last line says by how many ticks a chain falls short. The exit
    /// status of `timetable` is always 0.
    is_example: bool,
    /// What it is started with, and the side that is asked for by that.
    words: Vec<OsString>,
    pub side: Side,
}

impl Program {
    /// The one that the variable TIMETABLE names, or where `tools/build` puts it.
    pub fn timetable() -> Program {
        let path = match std::env::var_os("TIMETABLE") {
            Some(path) => path.into(),
            None => root().join("target/bin/timetable"),
        };
        Program::new(path, false)
    }

    /// Started without a word.
    pub fn new(path: PathBuf, is_example: bool) -> Program {
        Program { path, is_example, words: vec![], side: Side::Latest }
    }

    /// The same, asked for this side.
    pub fn on(&self, side: Side) -> Program {
        self.with_words(side, side.word())
    }

    /// The same, started with these words, by which this side is asked for.
    fn with_words(&self, side: Side, words: impl IntoIterator<Item = impl Into<OsString>>) -> Program {
        Program { path: self.path.clone(), words: words.into_iter().map(Into::into).collect(), side, ..*self }
    }

    pub fn command(&self) -> Command {
        self.command_by(EXEC)
    }

    /// Started by a shell script that ends in EXEC. Standard output is a pipe, unless the command is given another.
    pub fn command_by(&self, script: &str) -> Command {
        let mut command = Command::new("sh");
        command.arg("-c").arg(format!("ulimit -s {STACK} && {script}")).arg(&self.path).args(&self.words);
        command.stdout(Stdio::piped());
        command
    }

    /// It gave the right outcome of this text and nothing else. The kind of the case is the output's first word.
    pub fn outcome(&self, text: &[u8], given: &Given) -> Result<String, String> {
        self.same("standard error", "", &given.err)?;
        self.printed(&self.wanted(text, &given.out)?, given)
    }

    /// The right output. Where there is no timetable, any true chain is right: the printed one is checked and taken over.
    pub fn wanted(&self, text: &[u8], out: &str) -> Result<String, String> {
        let plan = match read(text) {
            Ok(plan) => plan,
            Err((number, place)) => return Ok(printed_refusal(number, place)),
        };
        if let Some(outcomes) = second::solve(&plan) {
            return Ok(printed(&plan, outcomes.on(self.side)));
        }
        let chain = codes(out)?;
        let ticks = check_chain(&plan, &chain)?;
        Ok(self.with_ticks(printed(&plan, &Outcome::None { chain }), ticks))
    }

    /// What is printed for a chain that falls short by so many ticks.
    pub fn with_ticks(&self, printed: String, ticks: u64) -> String {
        match ticks {
            _ if !self.is_example => printed,
            1 => format!("{printed}1 tick short\n"),
            _ => format!("{printed}{ticks} ticks short\n"),
        }
    }

    /// It printed this outcome and nothing else.
    pub fn printed(&self, outcome: &str, given: &Given) -> Result<String, String> {
        self.same("standard error", "", &given.err)?;
        self.same("standard output", outcome, &given.out)?;
        let word = outcome.split('\t').next().unwrap_or_default();
        let number = ["solved", "none", "refused"].iter().position(|known| *known == word).ok_or("no outcome")?;
        self.status(number, given)?;
        Ok(word.to_string())
    }

    /// It failed: nothing on standard output, and one line on standard error. The kind of the case is the reason.
    pub fn failure(&self, what: &str, reason: &str, given: &Given) -> Result<String, String> {
        self.same("standard output", "", &given.out)?;
        self.same("standard error", format!("{what}: {reason}\n").as_str(), &given.err)?;
        self.status(3, given)?;
        Ok(reason.to_string())
    }

    fn status(&self, number: usize, given: &Given) -> Result<(), String> {
        let status = if self.is_example { number as i32 } else { 0 };
        self.same("exit status", Some(status), given.status)
    }

    /// An error names the words.
    fn same<T: PartialEq + Debug>(&self, what: &str, wanted: T, got: T) -> Result<(), String> {
        same(what, wanted, got).map_err(|why| format!("words {:?}: {why}", self.words))
    }
}

/// The folder of the repository.
pub fn root() -> PathBuf {
    Path::new(env!("CARGO_MANIFEST_DIR")).join("..")
}

/// The last fields of the lines `step`.
fn codes(out: &str) -> Result<Vec<u16>, String> {
    let code = |line: &str| line.rsplit('\t').next().and_then(|field| field.parse().ok());
    out.lines()
        .filter(|line| line.starts_with("step"))
        .map(|line| code(line).ok_or(format!("no code at the end of {line:?}")))
        .collect()
}

/// Texts of all kinds, given at once.
pub fn printed_forms(group: &mut Group, program: &Program) {
    let run = |text: &[u8]| run_on(program.command(), text);
    let third = program.with_ticks(known::THIRD_PRINTED.into(), 1);
    for (case, printed) in [(1, known::SECOND_PRINTED), (2, &third)] {
        let text = known::cases().swap_remove(case).0;
        group.case(&text, run(&text).and_then(|given| program.printed(printed, &given)));
    }
    for text in texts() {
        group.case(&text, run(&text).and_then(|given| program.outcome(&text, &given)));
    }
}

/// Each of these texts that has a timetable, and each row of words. The kind of the case is the side.
pub fn words(group: &mut Group, program: &Program) {
    let rows = rows_of_words();
    for text in texts() {
        let Ok(plan) = read(&text) else { continue };
        let Some(outcomes) = second::solve(&plan) else { continue };
        for (side, words) in &rows {
            let program = program.with_words(*side, words);
            let given = run_on(program.command(), &text);
            let verdict = given.and_then(|given| program.printed(&printed(&plan, outcomes.on(*side)), &given));
            group.case(&text, verdict.map(|_| format!("{side:?}")));
        }
    }
}

/// The known plans and a word as long as can be. Words stand on the program's stack, so that is not made small here.
pub fn longest_word(group: &mut Group, program: &Program) {
    let word = [&b"earliest"[..], &[b't'; LONGEST_WORD - 8]].concat();
    for (text, _) in known::cases() {
        let mut command = Command::new(&program.path);
        command.arg(OsStr::from_bytes(&word)).stdout(Stdio::piped());
        group.case(&text, run_on(command, &text).and_then(|given| program.outcome(&text, &given)));
    }
}

/// Words, and the side that `timetable` gives for them: it looks at the first one only, and that asks for the earliest times where
/// it is `earliest` to the byte.
fn rows_of_words() -> Vec<(Side, Vec<OsString>)> {
    let long = [&b"earliest"[..], &[b't'; 4_088]].concat();
    let rows: [(Side, &[&[u8]]); 18] = [
        (Side::Latest, &[b""]),
        (Side::Latest, &[b"e"]),
        (Side::Latest, &[b"earlies"]),
        (Side::Latest, &[b"earlier"]),
        (Side::Latest, &[b"Earliest"]),
        (Side::Latest, &[b"eArliest"]),
        (Side::Latest, &[b"eaRliest"]),
        (Side::Latest, &[b"earLiest"]),
        (Side::Latest, &[b"earlIest"]),
        (Side::Latest, &[b"earliEst"]),
        (Side::Latest, &[b"earlieSt"]),
        (Side::Latest, &[b"earliesT"]),
        (Side::Latest, &[b"earliest "]),
        (Side::Latest, &[&long]),
        (Side::Latest, &[b"\xff\xc0\x80"]),
        (Side::Latest, &[b"latest", b"earliest"]),
        (Side::Latest, &[b"", b"earliest"]),
        (Side::Earliest, &[b"earliest", b"latest"]),
    ];
    let owned = |words: &[&[u8]]| words.iter().map(|word| OsStr::from_bytes(word).to_os_string()).collect();
    rows.into_iter().map(|(side, words)| (side, owned(words))).collect()
}

/// Texts of all kinds.
fn texts() -> impl Iterator<Item = Vec<u8>> {
    let known = known::cases().into_iter().chain(known::many_rules()).map(|(text, _)| text);
    let single = limits::single_distances().into_iter().map(|(text, _)| text);
    known.chain(single).chain(random_texts(400)).chain([full_plan()])
}

fn random_texts(count: usize) -> Vec<Vec<u8>> {
    let mut chance = Chance::new(21);
    let mut texts = Vec::new();
    for turn in 0..count {
        let shape = if turn % 10 == 0 { generate::full_shape(&mut chance) } else { generate::any_shape(&mut chance) };
        let text = generate::plan(&mut chance, &shape).text();
        texts.push(if turn % 4 == 3 { damage::at_random(&mut chance, &text) } else { text });
    }
    texts
}
