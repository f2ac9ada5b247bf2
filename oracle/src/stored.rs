//! The list of lines and answers that is replayed without the Rust.

use std::path::Path;
use std::{fs, io};

use crate::compare::{answers, Answers};
use crate::forms;
use crate::gen;
use crate::odd;
use crate::profiles::PROFILES;
use crate::EXAMPLE;

const AT_LEAST: usize = 20_000;

/// Writes DIR/stdin and DIR/stdout: document 01's example, the odd lines, then
/// scripts of all profiles from the seeds 1, 2, .. until there are enough, all
/// of these forms only. The last line lacks its newline.
pub fn write(folder: &str, only: Option<&[String]>) -> io::Result<()> {
    let mut script: Vec<u8> = EXAMPLE.0.to_vec();
    for line in odd::lines() {
        script.extend_from_slice(&line);
        script.push(b'\n');
    }
    let mut seed = 1;
    while forms::lines(&script).len() < AT_LEAST {
        for profile in PROFILES {
            let part = gen::script(seed, profile, gen::LINES, only);
            // What comes at or behind a sum that does not fit has no answer.
            let answered = answers(&part);
            let kept = answered.texts.len() - usize::from(answered.ended);
            for line in &forms::lines(&part)[..kept] {
                script.extend_from_slice(line);
                script.push(b'\n');
            }
        }
        seed += 1;
    }
    let answers = answers_without_ends(&mut script);
    let text: String = answers.texts.iter().map(|text| format!("{text}\n")).collect();
    script.pop();
    fs::create_dir_all(folder)?;
    fs::write(Path::new(folder).join("stdin"), &script)?;
    fs::write(Path::new(folder).join("stdout"), &text)?;
    println!(
        "{} lines from the seeds 1 to {} of {} profiles",
        answers.texts.len(),
        seed - 1,
        PROFILES.len()
    );
    Ok(())
}

/// The answers to the whole list. Lines before a script's first `pool` meet
/// the pool that the script before it left, so a sum may fail to fit in a new
/// place: that line is taken out.
fn answers_without_ends(script: &mut Vec<u8>) -> Answers {
    loop {
        let found = answers(script);
        if !found.ended {
            return found;
        }
        let mut lines = forms::lines(script);
        lines.remove(found.texts.len() - 1);
        *script = forms::join(&lines);
    }
}
