//! compare [COUNT [SEED]] [--program FILE] [--only INDEX]: holds wmftopbm against the second player.
//!
//! Arguments, the samples, then COUNT made-up files (default 2000) from SEED (default 1). The program runs as a child process with
//! --trace on each; picture, trace, report with its counts, and exit status must be the same. A file that differs is kept in checks/failures/.

mod generate;

use generate::{Random, KINDS};
use second::program::{self, Outcome, Seen};
use second::run::Answer;
use std::collections::BTreeMap;
use std::ffi::OsString;
use std::fs::{self, File};
use std::io::Write;
use std::os::unix::ffi::OsStringExt;
use std::path::{Path, PathBuf};
use std::process::{exit, Command, Stdio};

/// How the child gets its input.
enum Input<'a> {
    File(&'a Path),
    /// Written into a pipe in pieces.
    Pipe(&'a [u8], Vec<usize>),
}

fn run(program: &Path, words: &[OsString], input: Input) -> Outcome {
    let mut command = Command::new(program);
    command.args(words).stdout(Stdio::piped()).stderr(Stdio::piped());
    let fail = |error| -> ! {
        eprintln!("compare: {}: {error}", program.display());
        exit(2)
    };
    let output = match input {
        Input::File(path) => {
            command.stdin(File::open(path).unwrap());
            command.output().unwrap_or_else(|error| fail(error))
        }
        Input::Pipe(data, sizes) => {
            let mut child = command.stdin(Stdio::piped()).spawn().unwrap_or_else(|error| fail(error));
            let mut pipe = child.stdin.take().unwrap();
            std::thread::scope(|scope| {
                scope.spawn(move || {
                    let (mut rest, mut turn) = (data, 0);
                    while !rest.is_empty() {
                        let (piece, next) = rest.split_at(sizes[turn % sizes.len()].min(rest.len()));
                        if pipe.write_all(piece).is_err() {
                            break; // the child has read enough
                        }
                        (rest, turn) = (next, turn + 1);
                    }
                });
                child.wait_with_output().unwrap()
            })
        }
    };
    Outcome { out: output.stdout, err: output.stderr, status: output.status.code().unwrap_or(-1) }
}

/// What differs, with the first line of the report that does.
fn difference(found: &Outcome, wanted: &Outcome) -> Option<String> {
    let mut parts = vec![];
    if found.status != wanted.status {
        parts.push(format!("status {} and not {}", found.status, wanted.status));
    }
    if found.out != wanted.out {
        let at = found.out.iter().zip(&wanted.out).position(|(a, b)| a != b).unwrap_or(found.out.len().min(wanted.out.len()));
        parts.push(match at >= 11 && found.out.len() == wanted.out.len() {
            true => format!("picture, first in row {} about column {}", (at - 11) / 72, (at - 11) % 72 * 8),
            false => format!("picture, {} bytes and not {}", found.out.len(), wanted.out.len()),
        });
    }
    if found.err != wanted.err {
        let (a, b) = (String::from_utf8_lossy(&found.err), String::from_utf8_lossy(&wanted.err));
        let (mut a, mut b) = (a.lines(), b.lines());
        let line = loop {
            match (a.next(), b.next()) {
                (None, None) => break "line ends".to_string(),
                (a, b) if a != b => break format!("`{}` and not `{}`", a.unwrap_or(""), b.unwrap_or("")),
                _ => {}
            }
        };
        parts.push(format!("report: {line}"));
    }
    (!parts.is_empty()).then(|| parts.join("; "))
}

/// What the files have reached, by the second player.
#[derive(Default)]
struct Reached(BTreeMap<String, u64>);

impl Reached {
    fn add(&mut self, what: String) {
        *self.0.entry(what).or_default() += 1;
    }

    fn step(&mut self, seen: &Seen) {
        match seen.answer {
            Ok(Answer::Taken) => {
                let frame = seen.frame.as_ref().unwrap();
                let word = |i: usize| frame.parameters[2 * i];
                self.add(format!("taken {}", second::file::name(frame.function)));
                match frame.function {
                    0x061D => self.add(format!("paint {:02X}", word(1))),
                    0x0922 => self.add(format!("copy {:02X}", word(1))),
                    0x0104 => self.add(format!("mode {}", word(0))),
                    0x02FC if word(0) == 2 => self.add(format!("hatch {}", word(3))),
                    _ => {}
                }
            }
            Ok(Answer::PassedOver) => self.add("passed over".into()),
            Ok(Answer::Ended) => self.add("ended".into()),
            Err(fault) => {
                self.add(format!("refused {}", fault.number));
                for (i, a) in seen.causes.iter().enumerate() {
                    for b in &seen.causes[i + 1..] {
                        self.add(format!("pair {a}+{b}"));
                    }
                }
            }
        }
    }

    /// Everything that enough files should reach.
    fn wanted() -> Vec<String> {
        let taken = second::file::TABLE[1..].iter().map(|row| format!("taken {}", row.1));
        let pairs = ["6+7", "6+8", "6+9", "6+10", "6+11", "7+9", "7+10", "8+9", "9+10"].iter().map(|pair| format!("pair {pair}"));
        let paints = (0..=255u8).filter(|&code| !second::codes::depends_on_source(code)).map(|code| format!("paint {code:02X}"));
        taken
            .chain((3..=11).map(|number| format!("refused {number}")))
            .chain(pairs)
            .chain(["passed over".to_string(), "ended".to_string()])
            .chain(paints)
            .chain((0..=255).map(|code| format!("copy {code:02X}")))
            .chain((1..=16).map(|mode| format!("mode {mode}")))
            .chain((0..=5).map(|style| format!("hatch {style}")))
            .collect()
    }

    fn line(&self, start: &str) -> String {
        let mut found: Vec<(&str, u64)> = self.0.iter().filter_map(|(k, &n)| k.strip_prefix(start).map(|k| (k, n))).collect();
        found.sort_by_key(|&(k, _)| (k.len(), k));
        found.iter().map(|(k, n)| format!("{k} {n}")).collect::<Vec<_>>().join(", ")
    }
}

fn usage() -> ! {
    eprintln!("usage: compare [COUNT [SEED]] [--program FILE] [--only INDEX]");
    exit(2)
}

fn main() {
    let top = Path::new(env!("CARGO_MANIFEST_DIR")).join("../..");
    let (mut program, mut only, mut numbers) = (top.join("target/bin/wmftopbm"), None, vec![]);
    let mut words = std::env::args().skip(1);
    while let Some(word) = words.next() {
        match word.as_str() {
            "--program" => program = PathBuf::from(words.next().unwrap_or_else(|| usage())),
            "--only" => only = Some(words.next().and_then(|w| w.parse::<u64>().ok()).unwrap_or_else(|| usage())),
            _ => numbers.push(word.parse::<u64>().unwrap_or_else(|_| usage())),
        }
    }
    if numbers.len() > 2 {
        usage();
    }
    let count = numbers.first().copied().unwrap_or(2000);
    let seed = numbers.get(1).copied().unwrap_or(1);
    let kept = top.join("checks/failures");
    let scratch = std::env::temp_dir().join(format!("compare-{}.wmf", std::process::id()));
    println!("seed {seed}, {count} files");

    let (mut passed, mut failed) = (0u64, 0u64);
    let mut note = |label: &str, differs: Option<String>, data: &[u8], name: String| match differs {
        None => passed += 1,
        Some(what) => {
            failed += 1;
            fs::create_dir_all(&kept).unwrap();
            fs::write(kept.join(&name), data).unwrap();
            println!("{label}: {what}: checks/failures/{name}");
        }
    };
    let trace = [OsString::from("--trace")];

    // the program's arguments, against the program `second`
    if only.is_none() {
        let sample = top.join("samples/refused.wmf");
        let data = fs::read(&sample).unwrap();
        let twin = std::env::current_exe().unwrap().with_file_name("second");
        let lists: [&[&[u8]]; 20] = [
            &[], &[b"--trace"], &[b"--trace", b"--trace"], &[b"--help"], &[b"--trace", b"--help"], &[b"--help", b"--trace"],
            &[b"--help", b"x"], &[b"x", b"--help"], &[b"--trace", b"x"], &[b"--trace", b"x", b"--help"], &[b""], &[b"-"], &[b"-h"],
            &[b"--"], &[b"--trac"], &[b"--traces"], &[b"--TRACE"], &[b"--helpp"], &[b"--trace=1"], &[b"\xFF\xFE"],
        ];
        for (i, list) in lists.iter().enumerate() {
            let words: Vec<OsString> = list.iter().map(|word| OsString::from_vec(word.to_vec())).collect();
            let found = run(&program, &words, Input::File(&sample));
            let wanted = run(&twin, &words, Input::File(&sample));
            note(&format!("arguments {words:?}"), difference(&found, &wanted), &data, format!("arguments-{i}.wmf"));
        }
    }

    // input that cannot be read and output that cannot be written: status 1; what else is printed is left open
    if only.is_none() {
        let sample = top.join("samples/empty.wmf");
        for (label, input, output) in [("no input", top.join("samples"), "/dev/null"), ("full output", sample.clone(), "/dev/full")] {
            let output = File::options().write(true).open(output).unwrap();
            let status = Command::new(&program)
                .stdin(File::open(input).unwrap())
                .stdout(output)
                .stderr(Stdio::null())
                .status()
                .unwrap();
            let differs = (status.code() != Some(1)).then(|| format!("{status} and not 1"));
            note(label, differs, &fs::read(&sample).unwrap(), format!("{}.wmf", label.replace(' ', "-")));
        }
    }

    // the samples
    if only.is_none() {
        let mut paths: Vec<PathBuf> = ["samples", "samples/gallery"]
            .iter()
            .filter_map(|folder| fs::read_dir(top.join(folder)).ok())
            .flat_map(|entries| entries.map(|entry| entry.unwrap().path()))
            .filter(|path| path.extension().is_some_and(|end| end == "wmf"))
            .collect();
        paths.sort();
        println!("{} samples", paths.len());
        for path in paths {
            let (data, name) = (fs::read(&path).unwrap(), path.file_name().unwrap().to_string_lossy().into_owned());
            let found = run(&program, &trace, Input::File(&path));
            note(&name, difference(&found, &program::play(&data, true, |_| ())), &data, format!("sample-{name}"));
        }
    }

    let (mut reached, mut kinds) = (Reached::default(), BTreeMap::new());
    for index in only.map_or(0..count, |i| i..i + 1) {
        let (kind, make) = KINDS[index as usize % KINDS.len()];
        *kinds.entry(kind).or_insert(0u64) += 1;
        let mut r = Random::new(seed, index);
        let data = make(&mut r);
        let wanted = program::play(&data, true, |seen| reached.step(seen));
        if wanted.status != 0 {
            reached.add(format!("refused {}", second::file::check(&data[..data.len().min(program::INPUT)]).unwrap_err().number));
        }
        let found = if index % 8 == 7 {
            let sizes = (0..5).map(|_| r.within(1, 9000) as usize).collect();
            run(&program, &trace, Input::Pipe(&data, sizes))
        } else {
            fs::write(&scratch, &data).unwrap();
            run(&program, &trace, Input::File(&scratch))
        };
        let mut differs = difference(&found, &wanted);
        if differs.is_none() && index % 10 == 9 {
            let wanted = program::play(&data, false, |_| ());
            fs::write(&scratch, &data).unwrap();
            differs = difference(&run(&program, &[], Input::File(&scratch)), &wanted).map(|what| format!("without --trace: {what}"));
        }
        note(&format!("file {index} ({kind})"), differs, &data, format!("seed{seed}-{index}.wmf"));
    }
    let _ = fs::remove_file(&scratch);

    println!("files: {}", KINDS.iter().map(|(k, _)| format!("{k} {}", kinds.get(k).unwrap_or(&0))).collect::<Vec<_>>().join(", "));
    println!("taken: {}", reached.line("taken "));
    println!("ended {}, passed over {}", reached.0.get("ended").unwrap_or(&0), reached.0.get("passed over").unwrap_or(&0));
    println!("refused: {}", reached.line("refused "));
    println!("two causes in one record: {}", reached.line("pair "));
    let missing: Vec<String> = Reached::wanted().into_iter().filter(|what| !reached.0.contains_key(what)).collect();
    if !missing.is_empty() {
        println!("never reached: {}", missing.join(", "));
        if count >= 1000 && only.is_none() {
            failed += 1;
        }
    }
    println!("{passed} passed, {failed} failed");
    exit((failed != 0) as i32);
}
