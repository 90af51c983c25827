//! What the program writes and answers (docs/pictures-out.md).

use crate::codes::text;
use crate::file::{self, Fault, Frame};
use crate::picture::Picture;
use crate::run::{Answer, Run};

#[derive(Clone, PartialEq, Eq, Debug, Default)]
pub struct Outcome {
    pub out: Vec<u8>,
    pub err: Vec<u8>,
    pub status: i32,
}

pub const INPUT: usize = 65537;
pub const SHOWN: usize = 20;

pub const HELP: &str = "\
usage: wmftopbm [--trace] < FILE.wmf > FILE.pbm

Plays a Windows metafile on a one-bit picture of 576 x 400 cells
and writes the picture as a PBM.

  --trace  a line for each step on standard error: BYTE NAME ANSWER
  --help   this text

Exit status: 0 the picture was written, 1 it was not.
";

/// What the arguments ask for: playing, with or without a trace, or an outcome that needs no input.
pub fn arguments<S: AsRef<[u8]>>(words: impl IntoIterator<Item = S>) -> Result<bool, Outcome> {
    let refused = |err: Vec<u8>| Err(Outcome { err, status: 1, ..Outcome::default() });
    let words: Vec<S> = words.into_iter().collect();
    if words.iter().any(|word| std::str::from_utf8(word.as_ref()).is_err()) {
        return refused(b"wmftopbm: reading or writing failed\n".to_vec());
    }
    let mut trace = false;
    for word in words {
        match word.as_ref() {
            b"--trace" => trace = true,
            b"--help" => return Err(Outcome { out: HELP.into(), ..Outcome::default() }),
            _ => return refused([b"wmftopbm: unknown argument\n".as_slice(), HELP.as_ref()].concat()),
        }
    }
    Ok(trace)
}

/// One step as an onlooker sees it: the record that lies there, if any, every cause that holds, and the answer.
pub struct Seen<'a> {
    pub frame: Option<Frame<'a>>,
    pub causes: Vec<u8>,
    pub answer: Result<Answer, Fault>,
}

/// Plays a file as the program does; `see` is told each step.
pub fn play(input: &[u8], trace: bool, mut see: impl FnMut(&Seen)) -> Outcome {
    let input = &input[..input.len().min(INPUT)];
    let checked = match file::check(input) {
        Ok(checked) => checked,
        Err(fault) => return Outcome { out: vec![], err: format!("refused {}\n", told(fault)).into_bytes(), status: 1 },
    };
    let mut picture = Picture::new(576, 400, 1);
    let mut run = Run::start(checked);
    let (mut steps, mut refused, mut stop) = (String::new(), vec![], None);
    loop {
        let (place, frame) = (run.place, run.frame().ok());
        let causes = frame.as_ref().map_or(vec![5], |frame| run.causes(frame));
        let answer = run.step(&mut picture);
        let name = frame.as_ref().map_or("-".to_string(), |frame| file::name(frame.function));
        let word = match answer {
            Ok(Answer::Taken) => "taken".to_string(),
            Ok(Answer::PassedOver) => "passed over".to_string(),
            Ok(Answer::Ended) => "ended".to_string(),
            Err(fault) => format!("refused {} {}", fault.number, fault.layer()),
        };
        steps += &format!("{place} {name} {word}\n");
        see(&Seen { frame, causes, answer });
        match answer {
            Ok(Answer::Ended) => break,
            Err(fault) if fault.number == 5 => {
                stop = Some(fault);
                break;
            }
            Err(fault) => refused.push(fault),
            Ok(_) => {}
        }
    }
    let mut err = if trace { steps } else { String::new() };
    for &fault in refused.iter().take(SHOWN) {
        err += &format!("refused {}\n", told(fault));
    }
    if refused.len() > SHOWN {
        err += &format!("and {} more refused\n", refused.len() - SHOWN);
    }
    if let Some(fault) = stop {
        err += &format!("stopped: {}\n", told(fault));
    }
    err += &format!("taken {}, refused {}, passed over {}\n", run.taken, run.refused, run.passed);
    Outcome { out: picture.pbm(), err: err.into_bytes(), status: 0 }
}

fn told(fault: Fault) -> String {
    format!("{} at byte {} ({}): {}", fault.number, fault.place, fault.layer(), text(fault.number))
}
