//! The job of `fcrun` for `insert`, `get`, `remove` and `len`, over std's `BTreeMap`, as plain Rust would do it.
use std::collections::BTreeMap;
use std::io::{self, BufRead, BufReader, BufWriter, Write};
use std::process::ExitCode;

fn number(word: Option<&str>) -> Option<u64> {
    let word = word?;
    if word.is_empty() || word.len() > 20 || !word.bytes().all(|b| b.is_ascii_digit()) {
        return None;
    }
    word.parse().ok()
}

fn run(
    line: &str,
    maps: &mut [BTreeMap<u64, u64>; 2],
    out: &mut impl Write,
) -> Option<io::Result<()>> {
    let mut words = line.split(' ');
    let command = words.next()?;
    let map = match words.next()? {
        "a" => &mut maps[0],
        "b" => &mut maps[1],
        _ => return None,
    };
    let value = match command {
        "insert" => {
            let (key, value) = (number(words.next())?, number(words.next())?);
            map.insert(key, value)
        }
        "get" => map.get(&number(words.next())?).copied(),
        "remove" => map.remove(&number(words.next())?),
        "len" => return Some(writeln!(out, "{}", map.len())),
        _ => return None,
    };
    if words.next().is_some() {
        return None;
    }
    Some(match value {
        Some(value) => writeln!(out, "some {value}"),
        None => writeln!(out, "none"),
    })
}

fn main() -> ExitCode {
    let mut source = BufReader::new(io::stdin().lock());
    let mut out = BufWriter::new(io::stdout().lock());
    let mut maps = [BTreeMap::new(), BTreeMap::new()];
    let mut line = String::new();
    let mut count = 0u64;
    loop {
        line.clear();
        match source.read_line(&mut line) {
            Ok(0) => return ExitCode::SUCCESS,
            Ok(_) => {}
            Err(_) => return ExitCode::from(2),
        }
        count += 1;
        match run(line.strip_suffix('\n').unwrap_or(&line), &mut maps, &mut out) {
            Some(Ok(())) => {}
            Some(Err(_)) => return ExitCode::from(2),
            None => {
                let _ = writeln!(out, "line {count}: not a command");
                return ExitCode::from(1);
            }
        }
    }
}
