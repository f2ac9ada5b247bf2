//! Disagreements that are planted: the port is the Rust with some answers changed.

use super::*;

/// The first line at which a port differs that has these answers of the Rust wrong.
fn planted(script: &[u8], wrong: impl Fn(&str) -> bool) -> Option<usize> {
    answers(script).texts.iter().position(|text| wrong(text))
}

fn of_seed(seed: u64, profile: &str) -> Vec<u8> {
    gen::script(seed, gen::find(profile).expect("a profile"), gen::LINES, None)
}

/// No line can be taken out without the disagreement being gone.
fn is_smallest(script: &[u8], wrong: impl Fn(&str) -> bool) -> bool {
    let lines = forms::lines(script);
    (0..lines.len()).all(|at| {
        let mut fewer = lines.clone();
        fewer.remove(at);
        planted(&forms::join(&fewer), &wrong).is_none()
    })
}

#[test]
fn a_planted_disagreement_is_shrunk_to_its_smallest_script() {
    // What it takes at least: a pool, and for a conflict two submissions.
    for (profile, wrong, least) in [
        ("mixed", "(unread", 1),
        ("mixed", "(len", 2),
        ("conflicts", "(accepted", 2),
        ("conflicts", "(refused 29", 3),
        ("conflicts", "(replaced", 3),
        ("passes", "(invalid ", 5),
    ] {
        let wrong_here = |text: &str| text.starts_with(wrong);
        let script = of_seed(3, profile);
        assert!(forms::lines(&script).len() > 100, "{profile} is long");
        let small = shrink(&script, |script| planted(script, wrong_here));
        let lines = forms::lines(&small);
        assert_eq!(lines.len(), least, "{profile}, {wrong}: {}", small.escape_ascii());
        assert_eq!(planted(&small, wrong_here), Some(least - 1), "the last line shows it");
        assert!(is_smallest(&small, wrong_here), "{profile}, {wrong}");
        // Only lines of the script, in their order.
        let mut all = forms::lines(&script).into_iter();
        assert!(lines.iter().all(|line| all.any(|other| other == *line)), "{profile}, {wrong}");
    }
}

#[test]
fn a_script_without_a_disagreement_stays_as_it_is() {
    let script = of_seed(1, "tiny");
    assert_eq!(shrink(&script, |script| planted(script, |_| false)), script);
}

#[test]
fn a_disagreement_on_the_scripts_end_stays_as_it_is() {
    // It is there only while the last line lacks its newline.
    let script = b"(len)\n(len)\n(len)";
    let differs = |script: &[u8]| (script.last() != Some(&b'\n')).then_some(0);
    assert_eq!(shrink(script, differs), script);
}

/// cat prints the lines themselves.
fn cat() -> Port {
    Port::new(Some("/bin/cat"))
}

#[test]
fn a_program_is_asked_and_its_answers_are_compared() {
    assert!(cat().exists() && !Port::new(Some("/nowhere/poolrun run")).exists());
    assert_eq!(cat().run(b"(len)\n(top 1)"), Ok(vec!["(len)".into(), "(top 1)".into()]));
    let script = b"(len)\n(len)\n";
    let found = cat().differs(script, &answers(script));
    assert_eq!(found, Some((0, "(no pool)".into(), "(len)".into())));
    assert_eq!(cat().shrink(&of_seed(1, "tiny")).iter().filter(|b| **b == b'\n').count(), 1);
}

#[test]
fn answers_too_few_and_too_many_are_found() {
    let none = Answers { texts: vec![], forms: vec![], ended: false };
    assert_eq!(cat().differs(b"", &none), None);
    assert_eq!(cat().differs(b"a\n", &none), Some((0, "nothing".into(), "a".into())));
    let same = |ended| Answers { texts: vec!["a".into(), "b".into()], forms: vec!["len", "len"], ended };
    assert_eq!(cat().differs(b"a\nb\n", &same(false)), None);
    assert_eq!(cat().differs(b"a\n", &same(false)), Some((1, "b".into(), "nothing".into())));
    // The Rust may only stop at a sum; what comes behind it is not compared.
    assert_eq!(cat().differs(b"a\nb\n", &same(true)), Some((1, "b".into(), "not asked".into())));
    let sum = Answers { texts: vec!["a".into(), OVERFLOW.into()], forms: vec!["len", "tx"], ended: true };
    assert_eq!(cat().differs(b"a\nanything\n", &sum), None);
    let port = Port::new(Some("/nowhere/poolrun"));
    assert!(port.differs(b"a\n", &same(false)).is_some_and(|found| found.2.contains("does not start")));
}

#[test]
fn the_kinds_of_answers() {
    for (text, kind) in [
        ("(accepted a1)", "accepted"),
        ("(pooled)", "pooled"),
        ("(pooled (a1 5000 2000))", "pooled"),
        ("(replaced c (b a))", "replaced"),
        ("(refused 29)", "refused 29"),
        ("(verdict needed)", "verdict needed"),
        ("(no pool)", "no pool"),
        ("(no)", "no"),
        ("(unread 7)", "unread"),
    ] {
        assert_eq!(outcome(text), kind, "{text}");
    }
}

#[test]
fn a_seed_gives_the_same_script() {
    for profile in PROFILES {
        let script = gen::script(5, profile, 60, None);
        assert_eq!(script, gen::script(5, profile, 60, None), "{}", profile.name);
        assert_ne!(script, gen::script(6, profile, 60, None), "{}", profile.name);
    }
    let only = ["pool".to_string(), "len".to_string()];
    let script = gen::script(5, gen::find("mixed").expect("a profile"), 60, Some(&only));
    let names = forms::lines(&script).into_iter().filter_map(forms::read).map(|form| form.name());
    assert!(names.into_iter().all(|name| only.iter().any(|o| o == name)));
}
