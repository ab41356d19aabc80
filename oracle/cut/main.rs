//! Cuts the items that `edits.rs` names out of chardetng's lib.rs, makes the
//! edits listed there, and writes the result and the list of what was done.
//!
//! cut LIB_RS GIVEN_RS EDITS_TXT [--as-given]

mod edits;
mod scan;

use edits::{Edit, How, Piece, BRANCHES, EDITS, PIECES};
use std::fmt::Write;
use std::ops::Range;

/// The given text and what has been made of it so far.
struct Cutter {
    text: String,
    as_given: bool,
    given: String,
    list: String,
    /// Edits of items met so far; at the end all of them.
    edits_met: usize,
}

impl Cutter {
    fn line_of(&self, at: usize) -> usize {
        self.text[..at].matches('\n').count() + 1
    }

    /// Takes over one item, edited.
    fn take(&mut self, range: Range<usize>, name: &str) -> Result<(), String> {
        let (first, last) = (self.line_of(range.start), self.line_of(range.end));
        writeln!(self.list, "item {name}: lines {first} to {last}").unwrap();
        let mut item = self.text[range].to_string();
        for edit in EDITS.iter().filter(|edit| edit.item == name) {
            self.edits_met += 1;
            if self.as_given && edit.departs {
                writeln!(self.list, "  left as given: {}", edit.pattern).unwrap();
                continue;
            }
            item = apply(&item, edit).map_err(|e| format!("{name}: {}: {e}", edit.pattern))?;
            writeln!(self.list, "  {}", describe(edit)).unwrap();
        }
        self.given.push_str(&item);
        self.given.push_str("\n\n");
        Ok(())
    }

    /// Takes the named members of one `impl`, and no other of its members.
    fn take_members(&mut self, header: &str, members: &[&str]) -> Result<(), String> {
        let outer = scan::item(&self.text, &(0..self.text.len()), header)?;
        writeln!(self.given, "{header} {{").unwrap();
        for member in members {
            let range = scan::item(&self.text, &outer, member)?;
            self.take(range, &format!("{header}, {member}"))?;
        }
        self.given.push_str("}\n\n");
        Ok(())
    }

    fn run(&mut self) -> Result<(), String> {
        let (text, branches) = scan::take_last_branches(&self.text)?;
        if branches != BRANCHES {
            return Err(format!("cfg_if!: found {branches} times, not {BRANCHES}"));
        }
        writeln!(self.list, "cfg_if!: the last branch of each, {branches}").unwrap();
        self.text = text;
        for piece in PIECES {
            match piece {
                Piece::WholeAsGiven(_) if !self.as_given => {}
                Piece::Whole(header) | Piece::WholeAsGiven(header) => {
                    let range = scan::item(&self.text, &(0..self.text.len()), header)?;
                    self.take(range, header)?;
                }
                Piece::Members(header, members) => self.take_members(header, members)?,
            }
        }
        match EDITS.len() - self.edits_met {
            0 => Ok(()),
            n => Err(format!("{n} edits are of items not taken")),
        }
    }
}

fn describe(edit: &Edit) -> String {
    let Edit { pattern, times, why, .. } = edit;
    match edit.how {
        How::Replace("") => format!("dropped: {pattern} ({times}): {why}"),
        How::Replace(new) => format!("edit: {pattern} -> {new} ({times}): {why}"),
        How::DropArm => format!("arm dropped: {pattern} ({times}): {why}"),
    }
}

fn apply(item: &str, edit: &Edit) -> Result<String, String> {
    let found = scan::places(item, edit.pattern);
    if found.len() != edit.times {
        return Err(format!("found {} times, not {}", found.len(), edit.times));
    }
    let mut out = String::new();
    let mut done = 0;
    for at in found {
        out.push_str(&item[done..at]);
        let end = at + edit.pattern.len();
        match edit.how {
            How::Replace(new) => {
                out.push_str(new);
                done = end;
            }
            How::DropArm => {
                done = scan::end_of(item.as_bytes(), end, b',').ok_or("arm without end")?;
            }
        }
    }
    out.push_str(&item[done..]);
    Ok(out)
}

fn main() {
    let args: Vec<String> = std::env::args().skip(1).collect();
    let args: Vec<&str> = args.iter().map(String::as_str).collect();
    let (lib, given, list, as_given) = match args[..] {
        [lib, given, list] => (lib, given, list, false),
        [lib, given, list, "--as-given"] => (lib, given, list, true),
        _ => fail("use: cut LIB_RS GIVEN_RS EDITS_TXT [--as-given]".into()),
    };
    let text = std::fs::read_to_string(lib).unwrap_or_else(|e| fail(format!("{lib}: {e}")));
    let (given_text, list_text) = (String::new(), String::new());
    let mut cutter = Cutter { text, as_given, given: given_text, list: list_text, edits_met: 0 };
    cutter.run().unwrap_or_else(|e| fail(e));
    for (path, content) in [(given, &cutter.given), (list, &cutter.list)] {
        std::fs::write(path, content).unwrap_or_else(|e| fail(format!("{path}: {e}")));
    }
}

fn fail(message: String) -> ! {
    eprintln!("cut: {message}");
    std::process::exit(1)
}
