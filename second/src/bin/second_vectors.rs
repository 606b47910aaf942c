//! Runs a folder of outside vectors: texts/NNN.sync with NNN.log, and
//! pictures/NNN.in with NNN.out. Reports what differs.

use second::{Counts, Kind, Numbers, Refusal, Session, WORDS};
use std::path::{Path, PathBuf};
use std::process::ExitCode;

fn files(folder: &Path, extension: &str) -> Vec<PathBuf> {
    let entries = std::fs::read_dir(folder).expect("folder of vectors");
    let paths = entries.map(|entry| entry.expect("entry").path());
    let mut files: Vec<_> = paths.filter(|path| path.extension().is_some_and(|e| e == extension)).collect();
    files.sort();
    files
}

fn read(path: &Path) -> String {
    std::fs::read_to_string(path).unwrap_or_else(|error| panic!("{}: {error}", path.display()))
}

fn numbers(line: &str) -> Vec<i32> {
    line.split_whitespace().map(|word| word.parse().expect("number")).collect()
}

fn picture_text(numbers: Numbers, base: &[i16], out: &mut [i16]) -> String {
    match second::picture(numbers, base, out) {
        Ok(Counts { inherited, intra, outside }) => {
            let mut text = format!("counts {inherited} {intra} {outside}\n");
            for record in out.chunks(WORDS) {
                let words: Vec<_> = record.iter().map(|word| word.to_string()).collect();
                text += &words.join(" ");
                text += "\n";
            }
            text
        }
        Err(Refusal { number, place, rule }) => format!("refused {number} {place} {rule}\n"),
    }
}

/// The one-macroblock call and a session say what the picture call says.
fn singly(numbers: Numbers, base: &[i16], out: &[i16], accepted: bool) -> Result<(), String> {
    if !accepted {
        return Ok(());
    }
    let mut counts = Counts::default();
    let (mut session, begun) = Session::fresh().begin(numbers);
    begun.map_err(|refusal| format!("begin: {refusal:?}"))?;
    for (address, record) in out.chunks(WORDS).enumerate() {
        let width = numbers.full_width as usize / 16;
        let (column, row) = ((address % width) as i32, (address / width) as i32);
        let (mut one, mut two) = ([77; WORDS], [78; WORDS]);
        let single = second::macroblock(numbers, base, column, row, &mut one);
        let (handed_back, next) = session.next(base, &mut two);
        session = handed_back;
        if single != next || one != record || two != record {
            return Err(format!("macroblock {column} {row}: {single:?}, {next:?}"));
        }
        counts.add(single.map_or(Kind::Outside, |answer| answer.kind));
    }
    let (_, totals) = session.totals();
    if totals == counts {
        Ok(())
    } else {
        Err(format!("totals {totals:?}"))
    }
}

fn try_picture(input: &str, expected: &str) -> Result<(), String> {
    let mut lines = input.lines();
    let eight: [i32; 8] = numbers(lines.next().unwrap_or("")).try_into().expect("eight numbers");
    let geometry = Numbers::from_array(eight);
    let base: Vec<i16> = lines.flat_map(numbers).map(|word| word as i16).collect();
    let macroblocks = (geometry.full_width / 16 * (geometry.full_height / 16)).max(0) as usize;
    let mut out = vec![-77; macroblocks * WORDS];
    let untouched = out.clone();
    let found = picture_text(geometry, &base, &mut out);
    if found != expected {
        let at = found.lines().zip(expected.lines()).position(|(a, b)| a != b);
        return Err(format!("line {at:?} differs: {:?}", at.and_then(|at| found.lines().nth(at))));
    }
    let accepted = found.starts_with("counts");
    if !accepted && out != untouched {
        return Err("refused, but words were written".into());
    }
    singly(geometry, &base, &out, accepted)
}

fn main() -> ExitCode {
    let Some(folder) = std::env::args().nth(1) else {
        eprintln!("usage: second_vectors FOLDER");
        return ExitCode::FAILURE;
    };
    let folder = Path::new(&folder);
    let (mut tried, mut failed) = (0, 0);
    let mut report = |path: &Path, result: Result<(), String>| {
        tried += 1;
        if let Err(what) = result {
            failed += 1;
            println!("{}: {what}", path.display());
        }
    };
    for path in files(&folder.join("texts"), "sync") {
        let bytes = std::fs::read(&path).expect("text");
        let found = String::from_utf8_lossy(&second::log(&bytes)).into_owned();
        let expected = read(&path.with_extension("log"));
        let same = if found == expected { Ok(()) } else { Err(format!("found {found:?}, expected {expected:?}")) };
        report(&path, same);
    }
    for path in files(&folder.join("pictures"), "in") {
        report(&path, try_picture(&read(&path), &read(&path.with_extension("out"))));
    }
    println!("{tried} tried, {failed} differ");
    if failed == 0 && tried > 0 {
        ExitCode::SUCCESS
    } else {
        ExitCode::FAILURE
    }
}
