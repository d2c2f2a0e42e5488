//! The built program against the model, on random cases.

use crate::program;
use crate::random;
use std::fs;
use std::io::{self, Write};
use std::path::Path;
use std::process::{Command, Stdio};

/// What the model printed on the cases so far.
#[derive(Default)]
struct Tally {
    cases: u64,
    loads_refused: u64,
    accepted: u64,
    refused: u64,
    short: u64,
    unread: u64,
    /// Accepted steps with estimated lines.
    estimated: u64,
    /// Cases of more than two blocks of steps.
    long: u64,
}

/// Compares on the cases of the seeds first..last. At a difference it stops, and its folder stays.
pub fn compare(account: &Path, first: u64, last: u64, out: &mut impl Write) -> io::Result<()> {
    if first > last {
        return Err(io::Error::other(format!("no case is from {first} to {last}")));
    }
    let account = fs::canonicalize(account)?;
    let all = std::env::temp_dir().join(format!("account-compare-{}", std::process::id()));
    let mut tally = Tally::default();
    for seed in first..=last {
        let folder = all.join(seed.to_string());
        random::write(&random::case(seed), &folder)?;
        let expected = expected(&folder)?;
        if let Some(difference) = difference(&ran(&account, &folder)?, &expected) {
            let message = format!("case {seed}: {difference}; it stays in {}", folder.display());
            return Err(io::Error::other(message));
        }
        fs::remove_dir_all(&folder)?;
        tally.count(&expected);
    }
    fs::remove_dir(&all)?;
    tally.print(out)
}

/// What a run leaves: the lines of standard output and of standard error, and its status.
struct Left {
    printed: Vec<u8>,
    said: Vec<u8>,
    status: String,
}

fn expected(folder: &Path) -> io::Result<Left> {
    let mut printed = Vec::new();
    let ended = program::run_folder(folder, &mut printed)?;
    let said = ended.said.map(|line| line + "\n").unwrap_or_default().into_bytes();
    Ok(Left { printed, said, status: ended.status.to_string() })
}

fn ran(account: &Path, folder: &Path) -> io::Result<Left> {
    let ran = Command::new(account).current_dir(folder).stdin(Stdio::null()).output()?;
    let status = ran.status.code().map_or(ran.status.to_string(), |code| code.to_string());
    Ok(Left { printed: ran.stdout, said: ran.stderr, status })
}

/// The first difference from what is expected.
fn difference(ran: &Left, expected: &Left) -> Option<String> {
    let lines = first_line(&ran.printed, &expected.printed);
    let said =
        || first_line(&ran.said, &expected.said).map(|said| format!("standard error, {said}"));
    let status = || {
        let differs = ran.status != expected.status;
        differs.then(|| format!("status {}, where the model has {}", ran.status, expected.status))
    };
    lines.or_else(said).or_else(status)
}

/// The first line in which two texts differ.
fn first_line(got: &[u8], wanted: &[u8]) -> Option<String> {
    if got == wanted {
        return None;
    }
    let lines = |bytes: &[u8]| -> Vec<String> {
        String::from_utf8_lossy(bytes).lines().map(String::from).collect()
    };
    let [got, wanted] = [lines(got), lines(wanted)];
    let same = got.iter().zip(&wanted).take_while(|(a, b)| a == b).count();
    let at = |lines: &[String]| lines.get(same).cloned().unwrap_or("no line".into());
    Some(format!("line {}: `{}`, where the model has `{}`", same + 1, at(&got), at(&wanted)))
}

impl Tally {
    fn count(&mut self, expected: &Left) {
        self.cases += 1;
        self.unread += u64::from(expected.status == "3");
        let steps = self.accepted + self.refused;
        for line in String::from_utf8_lossy(&expected.printed).lines() {
            match line.split(' ').nth(1) {
                _ if line.starts_with("load ") => self.loads_refused += 1,
                _ if line.starts_with("short ") => self.short += 1,
                Some("ok") => {
                    self.accepted += 1;
                    self.estimated += u64::from(!line.ends_with(" 0"));
                }
                _ => self.refused += 1,
            }
        }
        self.long += u64::from(self.accepted + self.refused > steps + 2 * program::STEPS as u64);
    }

    fn print(&self, out: &mut impl Write) -> io::Result<()> {
        let Tally { cases, loads_refused, accepted, refused, short, unread, estimated, long } =
            self;
        write!(out, "{cases} cases agree, {long} of them of more than two blocks of steps: ")?;
        write!(out, "{loads_refused} loads refused, {accepted} steps accepted, {estimated} of ")?;
        writeln!(
            out,
            "them with estimated lines, {refused} refused, {short} short, {unread} failed reads"
        )
    }
}

#[cfg(test)]
mod tests {
    use super::*;

    /// The gate compares on the cases 1 to 300.
    #[test]
    fn the_gates_cases_are_of_every_kind() {
        let all = std::env::temp_dir().join(format!("account-kinds-{}", std::process::id()));
        let mut tally = Tally::default();
        for seed in 1..=300u64 {
            let folder = all.join(seed.to_string());
            random::write(&random::case(seed), &folder).unwrap();
            tally.count(&expected(&folder).unwrap());
        }
        fs::remove_dir_all(&all).unwrap();
        let Tally { loads_refused, accepted, refused, short, estimated, long, .. } = tally;
        for (kind, count) in [
            ("loads refused", loads_refused),
            ("accepted", accepted),
            ("refused", refused),
            ("short", short),
            ("estimated", estimated),
            ("long", long),
        ] {
            assert!(count >= 10, "{kind}: {count}");
        }
    }
}
