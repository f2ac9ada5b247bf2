//! What a comparison has to have seen: an outcome that never occurred was not
//! compared.

use crate::compare::Options;

/// A form, one of its outcomes, and the other forms without which it cannot occur.
type Outcome = (&'static str, &'static str, &'static [&'static str]);

/// Everything that poolrun can answer. Refusal 7 is not among it: 5,001 inputs
/// do not fit a line.
const ALL: &[Outcome] = &[
    ("pool", "ready", &[]),
    ("pool", "refused 6", &[]),
    ("tx", "accepted", &[]),
    ("tx", "replaced", &[]),
    ("tx", "verdict needed", &[]),
    ("tx", "refused 3", &[]),
    ("tx", "refused 4", &[]),
    ("tx", "refused 5", &[]),
    ("tx", "refused 8", &[]),
    ("tx", "refused 9", &[]),
    ("tx", "refused 10", &[]),
    ("tx", "refused 20", &["open"]),
    ("tx", "refused 22", &[]),
    ("tx", "refused 23", &[]),
    ("tx", "refused 24", &[]),
    ("tx", "refused 25", &[]),
    ("tx", "refused 26", &[]),
    ("tx", "refused 27", &["return"]),
    ("tx", "refused 28", &[]),
    ("tx", "refused 29", &[]),
    ("tx", "refused 30", &[]),
    ("return", "returned", &[]),
    ("return", "refused 3", &[]),
    ("return", "refused 20", &["open"]),
    ("return", "refused 23", &[]),
    ("return", "refused 27", &[]),
    ("block", "removed", &[]),
    ("block", "refused 20", &["open"]),
    ("invalidate", "invalidated", &[]),
    ("invalidate", "refused 20", &["open"]),
    ("open", "opened", &[]),
    ("open", "refused 20", &[]),
    ("next", "candidate", &["open", "tx"]),
    ("next", "ended", &["open"]),
    ("next", "refused 21", &[]),
    ("answer", "missing", &["open", "next", "tx"]),
    ("answer", "verdict needed", &["open", "next", "tx"]),
    ("answer", "invalid", &["open", "next", "tx"]),
    ("answer", "valid", &["open", "next", "tx"]),
    ("answer", "refused 1", &["open", "next", "tx"]),
    ("answer", "refused 21", &[]),
    ("rebroadcast", "ids", &[]),
    ("list", "pooled", &[]),
    ("list", "no pool", &[]),
    ("top", "pooled", &[]),
    ("len", "len", &[]),
    ("contains", "yes", &["tx"]),
    ("contains", "no", &[]),
    ("spending", "spender", &["tx"]),
    ("spending", "none", &[]),
    ("fee", "fee", &[]),
    ("fee", "refused 3", &[]),
    ("wait", "wait", &[]),
    ("wait", "refused 3", &[]),
    ("histogram", "bins", &[]),
    ("histogram", "refused 2", &[]),
    ("histogram", "refused 11", &[]),
    ("charges", "charges", &[]),
    ("written", "ids", &[]),
    ("unread", "unread", &[]),
];

/// What the scripts of a profile show, besides what every script does: each of
/// them nearly always, and any ten of them.
struct Shown {
    profile: &'static str,
    each: &'static [&'static str],
    ten: &'static [&'static str],
}

const BY_PROFILE: &[Shown] = &[
    Shown {
        profile: "conflicts",
        each: &[
            "tx: accepted", "tx: replaced", "tx: refused 8", "tx: refused 9", "tx: refused 23",
            "tx: refused 28", "tx: refused 29", "return: returned", "block: removed",
        ],
        ten: &[
            "tx: verdict needed", "tx: refused 10", "tx: refused 22", "tx: refused 30",
            "return: refused 23", "rebroadcast: ids", "contains: no", "contains: yes",
            "spending: spender", "fee: fee", "wait: wait", "histogram: bins",
            "histogram: refused 11",
        ],
    },
    Shown {
        profile: "cycles",
        each: &[
            "tx: accepted", "tx: replaced", "tx: refused 29", "return: returned",
            "block: removed", "invalidate: invalidated", "open: opened", "next: ended",
        ],
        ten: &[
            "tx: verdict needed", "tx: refused 8", "tx: refused 9", "tx: refused 22",
            "tx: refused 23", "tx: refused 28", "tx: refused 30", "return: refused 23",
            "next: candidate", "answer: invalid", "answer: valid", "rebroadcast: ids",
            "contains: no", "contains: yes", "spending: spender", "fee: fee", "wait: wait",
            "histogram: bins",
        ],
    },
    Shown {
        profile: "tiny",
        each: &[
            "tx: accepted", "tx: replaced", "tx: verdict needed", "tx: refused 8",
            "tx: refused 28", "tx: refused 29", "tx: refused 30", "return: returned",
            "block: removed",
        ],
        ten: &[
            "tx: refused 9", "tx: refused 10", "tx: refused 23", "open: opened",
            "next: candidate", "next: ended", "answer: valid", "rebroadcast: ids",
            "contains: no", "spending: none", "spending: spender", "wait: wait",
            "histogram: bins",
        ],
    },
    Shown {
        profile: "full",
        each: &[
            "tx: accepted", "tx: replaced", "tx: refused 22", "tx: refused 23",
            "tx: refused 27", "tx: refused 29", "tx: refused 30", "return: returned",
            "invalidate: invalidated",
        ],
        ten: &[
            "tx: refused 10", "tx: refused 28", "return: refused 27", "block: removed",
        ],
    },
    Shown {
        profile: "limits",
        each: &[
            "tx: accepted", "tx: replaced", "tx: refused 10", "tx: refused 23",
            "tx: refused 24", "tx: refused 25", "tx: refused 28", "tx: refused 29",
            "return: returned", "block: removed",
        ],
        ten: &[
            "tx: verdict needed", "tx: refused 8", "tx: refused 9",
        ],
    },
    Shown {
        profile: "peers",
        each: &[
            "tx: accepted", "tx: refused 10", "tx: refused 23", "tx: refused 26",
            "tx: refused 30", "block: removed",
        ],
        ten: &[
            "tx: replaced", "tx: refused 9", "tx: refused 22", "tx: refused 28",
            "return: returned",
        ],
    },
    Shown {
        profile: "cache",
        each: &[
            "tx: accepted", "tx: refused 9", "tx: refused 22", "tx: refused 23",
            "return: returned", "block: removed", "invalidate: invalidated", "open: opened",
            "next: candidate", "next: ended", "contains: no", "contains: yes",
        ],
        ten: &[
            "tx: replaced", "tx: refused 8", "tx: refused 28", "tx: refused 29",
            "answer: valid",
        ],
    },
    Shown {
        profile: "passes",
        each: &[
            "tx: accepted", "tx: replaced", "tx: refused 28", "tx: refused 29",
            "return: returned", "open: opened", "next: candidate", "next: ended",
            "answer: invalid", "answer: missing", "answer: valid", "answer: refused 1",
            "answer: refused 21", "rebroadcast: ids",
        ],
        ten: &[
            "tx: verdict needed", "tx: refused 8", "tx: refused 9", "tx: refused 20",
            "tx: refused 23", "tx: refused 30", "return: refused 23", "block: removed",
            "answer: verdict needed", "contains: no", "contains: yes",
        ],
    },
    Shown {
        profile: "stats",
        each: &[
            "tx: accepted", "return: returned", "block: removed", "fee: fee", "wait: wait",
            "histogram: bins",
        ],
        ten: &[
            "rebroadcast: ids", "contains: no", "contains: yes", "spending: none",
            "spending: spender", "histogram: refused 11",
        ],
    },
    Shown {
        profile: "extremes",
        each: &[
            "tx: accepted", "tx: refused 5", "return: returned", "return: refused 3",
        ],
        ten: &[
            "pool: refused 6", "tx: replaced", "tx: refused 3", "tx: refused 4",
            "tx: refused 8", "tx: refused 10", "tx: refused 23", "tx: refused 28",
            "tx: refused 29", "tx: refused 30", "block: removed", "open: opened",
            "next: ended", "rebroadcast: ids", "contains: no", "contains: yes",
            "spending: spender", "fee: fee", "fee: refused 3", "wait: wait", "wait: refused 3",
            "histogram: bins",
        ],
    },
    Shown {
        profile: "walks",
        each: &[
            "tx: accepted",
        ],
        ten: &[],
    },
    Shown {
        profile: "clocks",
        each: &[
            "tx: accepted", "tx: replaced", "tx: refused 9", "tx: refused 22",
            "tx: refused 28", "tx: refused 29", "return: returned", "block: removed",
            "invalidate: invalidated", "open: opened", "next: candidate", "next: ended",
            "answer: valid", "rebroadcast: ids", "contains: no", "contains: yes",
            "spending: none", "spending: spender", "fee: fee", "wait: wait", "histogram: bins",
        ],
        ten: &[
            "tx: verdict needed", "tx: refused 8", "tx: refused 23", "answer: invalid",
            "answer: missing", "fee: refused 3", "wait: refused 3", "histogram: refused 2",
            "histogram: refused 11",
        ],
    },
    Shown {
        profile: "unread",
        each: &[
            "pool: refused 6", "tx: accepted", "tx: replaced", "tx: verdict needed",
            "return: returned", "block: removed", "open: opened", "next: ended",
            "rebroadcast: ids", "contains: no", "spending: none", "wait: wait",
            "histogram: refused 11", "unread: unread",
        ],
        ten: &[
            "tx: refused 3", "tx: refused 5", "tx: refused 9", "tx: refused 10",
            "tx: refused 20", "tx: refused 23", "tx: refused 28", "tx: refused 29",
            "invalidate: invalidated", "next: candidate", "answer: valid",
            "answer: refused 21", "spending: spender", "fee: fee", "fee: refused 3",
            "wait: refused 3", "histogram: bins", "histogram: refused 2", "list: no pool",
        ],
    },
    Shown {
        profile: "mixed",
        each: &[
            "tx: accepted", "tx: replaced", "tx: verdict needed", "tx: refused 9",
            "tx: refused 23", "tx: refused 28", "tx: refused 29", "return: returned",
            "block: removed", "invalidate: invalidated", "open: opened", "next: ended",
            "rebroadcast: ids", "contains: no", "histogram: bins",
        ],
        ten: &[
            "tx: refused 8", "tx: refused 10", "tx: refused 30", "next: candidate",
            "answer: invalid", "answer: missing", "answer: valid", "contains: yes",
            "spending: none", "spending: spender", "fee: fee", "wait: wait",
            "histogram: refused 11", "unread: unread",
        ],
    },
    Shown {
        profile: "submit",
        each: &[
            "tx: accepted", "tx: refused 29",
        ],
        ten: &[
            "tx: replaced", "tx: verdict needed", "tx: refused 8", "tx: refused 9",
            "tx: refused 10", "tx: refused 23", "tx: refused 28", "tx: refused 30",
            "contains: no", "contains: yes", "spending: none", "spending: spender",
            "unread: unread",
        ],
    },
    Shown {
        profile: "noopen",
        each: &[
            "tx: accepted", "tx: replaced", "tx: refused 9", "tx: refused 23",
            "tx: refused 28", "tx: refused 29", "return: returned", "block: removed",
            "contains: yes", "spending: spender", "fee: fee", "wait: wait", "histogram: bins",
        ],
        ten: &[
            "tx: verdict needed", "tx: refused 8", "tx: refused 10", "tx: refused 30",
            "return: refused 23", "invalidate: invalidated", "contains: no", "spending: none",
            "fee: refused 3", "histogram: refused 11", "unread: unread",
        ],
    },
];

/// What was to be seen and was not.
pub fn missed(options: &Options, found: &[(&str, &str)]) -> Vec<(&'static str, &'static str)> {
    let kept = |form: &str| match &options.forms {
        None => true,
        Some(forms) => form == "unread" || forms.iter().any(|f| f == form),
    };
    // Which outcomes a profile is sure to show is known for whole scripts only.
    let shown = |form: &str, outcome: &str| {
        if options.forms.is_some() {
            return false;
        }
        let wanted = format!("{form}: {outcome}");
        let asked = |shown: &&Shown| options.profiles.iter().any(|p| p.name == shown.profile);
        BY_PROFILE.iter().filter(asked).any(|shown| {
            shown.each.contains(&wanted.as_str())
                || options.seeds >= 10 && shown.ten.contains(&wanted.as_str())
        })
    };
    ALL.iter()
        .filter(|(form, outcome, needs)| {
            let due = options.all_profiles || shown(form, outcome);
            due && kept(form) && needs.iter().all(|form| kept(form))
        })
        .map(|(form, outcome, _)| (*form, *outcome))
        .filter(|wanted| !found.contains(wanted))
        .collect()
}
