//! Counts cases, a group at a time and by kind, and prints those that fail.
use std::collections::BTreeMap;

const SHOWN_FAILURES: usize = 5;
const SHOWN_BYTES: usize = 3_000;

#[derive(Default)]
pub struct Tally {
    passed: usize,
    failed: usize,
}

/// The cases of one group.
pub struct Group<'a> {
    name: &'a str,
    passed: usize,
    failed: usize,
    kinds: BTreeMap<String, usize>,
}

impl Tally {
    /// Runs the cases of one group and prints how many they were.
    pub fn group(&mut self, name: &str, cases: impl FnOnce(&mut Group)) {
        let mut group = Group { name, passed: 0, failed: 0, kinds: BTreeMap::new() };
        cases(&mut group);
        println!("{name}: {} cases ({})", group.passed + group.failed, group.kinds());
        self.passed += group.passed;
        self.failed += group.failed;
    }

    /// Prints the sums; the exit status tells whether all passed.
    pub fn finish(self) -> std::process::ExitCode {
        println!("{} passed, {} failed", self.passed, self.failed);
        if self.failed == 0 && self.passed > 0 {
            std::process::ExitCode::SUCCESS
        } else {
            std::process::ExitCode::FAILURE
        }
    }
}

impl Group<'_> {
    /// One case on one text: its kind, or what failed.
    pub fn case(&mut self, text: &[u8], verdict: Result<String, String>) {
        match verdict {
            Ok(kind) => {
                self.passed += 1;
                *self.kinds.entry(kind).or_default() += 1;
            }
            Err(why) => {
                self.failed += 1;
                if self.failed <= SHOWN_FAILURES {
                    println!("FAILED {}: {why}\n{}", self.name, readable(text));
                }
            }
        }
    }

    /// How many of each kind: it shows that none is missing.
    fn kinds(&self) -> String {
        let mut kinds: Vec<String> = self.kinds.iter().map(|(kind, count)| format!("{kind}: {count}")).collect();
        if self.failed > 0 {
            kinds.push(format!("FAILED: {}", self.failed));
        }
        kinds.join(", ")
    }
}

/// The text with tabs and odd bytes made visible, a line a line, cut where it is long.
pub fn readable(text: &[u8]) -> String {
    let shown = &text[..text.len().min(SHOWN_BYTES)];
    let mut out = String::new();
    for line in shown.split_inclusive(|&byte| byte == b'\n') {
        out.push_str(&format!("    | {}\n", line.escape_ascii()));
    }
    if shown.len() < text.len() {
        out.push_str(&format!("    | ... {} bytes in all\n", text.len()));
    }
    out
}

/// An error where two things that ought to be equal are not.
pub fn same<T: PartialEq + std::fmt::Debug>(what: &str, wanted: T, got: T) -> Result<(), String> {
    if wanted == got {
        Ok(())
    } else {
        Err(format!("{what}: wanted {wanted:?}, got {got:?}"))
    }
}

/// The same for two rows of entries: names the first that differs.
pub fn same_entries<T: PartialEq + std::fmt::Debug>(what: &str, wanted: &[T], got: &[T]) -> Result<(), String> {
    match (0..wanted.len().max(got.len())).find(|&entry| wanted.get(entry) != got.get(entry)) {
        None => Ok(()),
        Some(entry) => same(&format!("{what}, entry {entry}"), wanted.get(entry), got.get(entry)),
    }
}
