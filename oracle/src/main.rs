//! The given Rust over lent data. README.md says what each mode reads and
//! writes.

mod alone;
mod bench;
mod digest;
mod drive;
mod input;
mod leaves;
mod lent;
mod make;
mod ninth;
mod order;
mod patch;
mod random;
mod reach;
mod reason;
mod record;
mod replay;
mod selftest;
mod sheet;
mod stand;
mod stream;
mod trace;

use lent::{weight, SingleByteData};
use ninth::ShiftJisCandidate;
use stand::{cjk_extra_score, data, memchr, Decoder, DecoderResult, Encoding};
use stand::{BIG5, EUC_KR, ISO_2022_JP, UTF_8};

// The given items as `cut` wrote them. They stand at the root so that the
// modules above can see their private fields. Of the ninth place they have the
// name alone.
include!(env!("GIVEN"));

use std::io::{BufReader, BufWriter, Error, Read, Write};

fn main() {
    let args: Vec<String> = std::env::args().skip(1).collect();
    let args: Vec<&str> = args.iter().map(String::as_str).collect();
    let input = BufReader::with_capacity(1 << 16, std::io::stdin().lock());
    let mut out = BufWriter::with_capacity(1 << 16, std::io::stdout().lock());
    let done = run(&args, input, &mut out).and_then(|()| out.flush());
    if let Err(error) = done {
        eprintln!("oracle: {error}");
        std::process::exit(1);
    }
}

const MODES: &str = "the modes, which README.md explains:
  replay [--cases]
  count
  drive [--text | --digest]
  leaves
  digest
  gen tables NAME [SEED] | tables standard INDEX_DIR | streams KIND SEED COUNT
    | drive PLACE KIND SEED COUNT | named | text NAME SEED LENGTH | malformed | leaves SEED COUNT
  patch CHANGE..
  bench count_non_ascii | scan | contains | place K CHUNK [TABLES] | all BITS CHUNK [TABLES]
  selftest INDEX_DIR";

fn run(args: &[&str], input: impl Read, out: &mut impl Write) -> std::io::Result<()> {
    match args {
        ["replay"] => replay::run(input, out),
        ["replay", "--cases"] => replay::cases(input, out),
        ["count"] => replay::count(input, out),
        ["drive"] => drive::run(input, out, drive::Form::Binary),
        ["drive", "--text"] => drive::run(input, out, drive::Form::Text),
        ["drive", "--digest"] => drive::run(input, out, drive::Form::Digest),
        ["leaves"] => leaves::run(input, out),
        ["digest"] => writeln!(out, "{}", digest::run(input)?),
        ["gen", what @ ..] => make::run(what, out),
        ["patch", changes @ ..] => {
            let patched = patch::run(changes, whole(input)?).map_err(Error::other)?;
            out.write_all(&patched)
        }
        ["bench", what @ ..] => {
            let line = bench::run(what, &whole(input)?);
            writeln!(out, "{}", line.ok_or(Error::other("bench: not known"))?)
        }
        ["selftest", folder] => selftest::run(folder, out),
        _ => Err(Error::other(MODES)),
    }
}

fn whole(mut input: impl Read) -> std::io::Result<Vec<u8>> {
    let mut bytes = Vec::new();
    input.read_to_end(&mut bytes)?;
    Ok(bytes)
}
