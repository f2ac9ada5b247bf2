//! Reading one line of input. Written from document 01 and the page of forms,
//! on bytes: a line may hold anything.

pub type Id = [u8; 32];

const LONGEST_LINE: usize = 4_096;
const DEEPEST: usize = 8;

#[derive(Clone, Copy, Debug, PartialEq, Eq)]
pub enum Verdict {
    Ok(u64),
    Bad,
    None,
}

#[derive(Clone, Copy, Debug, PartialEq, Eq)]
pub struct Output {
    pub box_id: Id,
    pub value: u64,
    pub fee: bool,
    pub height: u32,
}

#[derive(Clone, Debug, PartialEq, Eq)]
pub struct Tx {
    pub time: u64,
    pub id: Id,
    pub peer: Option<u64>,
    pub size: u64,
    pub preheader: u32,
    pub inputs: Vec<(Id, bool)>,
    pub outputs: Vec<Output>,
    pub verdict: Verdict,
}

#[derive(Clone, Debug, PartialEq, Eq)]
pub struct Return {
    pub id: Id,
    pub fee: u64,
    pub size: u64,
    pub cost: u32,
    pub measured: Option<u64>,
    pub created: u64,
    pub checked: u64,
    pub peer: Option<u64>,
    pub inputs: Vec<Id>,
    pub outputs: Vec<(Id, u32)>,
}

#[derive(Clone, Debug, PartialEq, Eq)]
pub struct Settings {
    pub capacity: u64,
    pub min_fee: u64,
    pub by_cycle: bool,
    pub interval: u64,
    pub rebroadcast: u64,
    pub ttl: u64,
    pub cache: u64,
    pub block_limit: u64,
    pub peer_limit: u64,
}

#[derive(Clone, Debug, PartialEq, Eq)]
pub enum Form {
    Pool(Settings),
    Tx(Tx),
    Return(Return),
    Block { time: u64, txs: Vec<(Id, Vec<Id>)> },
    Invalidate { time: u64, id: Id },
    Open { time: u64, limit: u64, preheader: u32 },
    Next,
    Answer { flags: Vec<bool>, verdict: Verdict },
    Rebroadcast(Vec<Id>),
    List,
    Top(u64),
    Len,
    Contains { time: u64, id: Id },
    Spending(Id),
    Fee { minutes: u32, size: u32 },
    Wait { time: u64, fee: u64, size: u32 },
    Histogram { time: u64, bins: u32, longest: u64 },
    Charges,
    Written,
}

/// The first words of all forms.
pub const NAMES: &[&str] = &[
    "pool", "tx", "return", "block", "invalidate", "open", "next", "answer", "rebroadcast", "list",
    "top", "len", "contains", "spending", "fee", "wait", "histogram", "charges", "written",
];

impl Form {
    pub fn name(&self) -> &'static str {
        match self {
            Form::Pool(_) => "pool",
            Form::Tx(_) => "tx",
            Form::Return(_) => "return",
            Form::Block { .. } => "block",
            Form::Invalidate { .. } => "invalidate",
            Form::Open { .. } => "open",
            Form::Next => "next",
            Form::Answer { .. } => "answer",
            Form::Rebroadcast(_) => "rebroadcast",
            Form::List => "list",
            Form::Top(_) => "top",
            Form::Len => "len",
            Form::Contains { .. } => "contains",
            Form::Spending(_) => "spending",
            Form::Fee { .. } => "fee",
            Form::Wait { .. } => "wait",
            Form::Histogram { .. } => "histogram",
            Form::Charges => "charges",
            Form::Written => "written",
        }
    }
}

/// The lines of a script: each ends with a newline or with the script.
pub fn lines(script: &[u8]) -> Vec<&[u8]> {
    let mut lines: Vec<&[u8]> = script.split(|b| *b == b'\n').collect();
    if lines.last().is_some_and(|last| last.is_empty()) {
        lines.pop();
    }
    lines
}

/// The script of these lines, each with its newline.
pub fn join(lines: &[&[u8]]) -> Vec<u8> {
    lines.iter().flat_map(|line| line.iter().copied().chain([b'\n'])).collect()
}

/// The form that a line spells, if it spells one.
pub fn read(line: &[u8]) -> Option<Form> {
    if line.len() > LONGEST_LINE {
        return None;
    }
    let mut reader = Reader { line, at: 0 };
    reader.spaces();
    reader.byte(b'(')?;
    let members = reader.list(1)?;
    reader.spaces();
    if reader.at != line.len() {
        return None;
    }
    form(&members)
}

/// What a bracket form consists of.
enum Node<'a> {
    Word(&'a [u8]),
    List(Vec<Node<'a>>),
}

struct Reader<'a> {
    line: &'a [u8],
    at: usize,
}

impl<'a> Reader<'a> {
    fn peek(&self) -> Option<u8> {
        self.line.get(self.at).copied()
    }

    /// Skips spaces and says whether there was one.
    fn spaces(&mut self) -> bool {
        let start = self.at;
        while self.peek() == Some(b' ') {
            self.at += 1;
        }
        self.at > start
    }

    fn byte(&mut self, wanted: u8) -> Option<()> {
        (self.peek()? == wanted).then(|| self.at += 1)
    }

    /// The members up to the closing bracket; the opening one has been read.
    fn list(&mut self, depth: usize) -> Option<Vec<Node<'a>>> {
        if depth > DEEPEST {
            return None;
        }
        let mut members = Vec::new();
        loop {
            let parted = self.spaces();
            if self.peek()? == b')' {
                self.at += 1;
                return Some(members);
            }
            if !members.is_empty() && !parted {
                return None;
            }
            if self.peek()? == b'(' {
                self.at += 1;
                members.push(Node::List(self.list(depth + 1)?));
            } else {
                let start = self.at;
                while self.peek().is_some_and(|b| b != b' ' && b != b'(' && b != b')') {
                    self.at += 1;
                }
                members.push(Node::Word(&self.line[start..self.at]));
            }
        }
    }
}

fn form(members: &[Node]) -> Option<Form> {
    let (name, rest) = members.split_first()?;
    Some(match (word(name)?, rest) {
        (b"pool", [a, b, c, d, e, f, g, h, i]) => Form::Pool(Settings {
            capacity: number(a)?,
            min_fee: number(b)?,
            by_cycle: choice(c, b"cycle", b"byte")?,
            interval: number(d)?,
            rebroadcast: number(e)?,
            ttl: number(f)?,
            cache: number(g)?,
            block_limit: number(h)?,
            peer_limit: number(i)?,
        }),
        (b"tx", [a, b, c, d, e, f, g, h]) => Form::Tx(Tx {
            time: number(a)?,
            id: id(b)?,
            peer: number_or(c, b"local")?,
            size: number(d)?,
            preheader: short(e)?,
            inputs: each(f, input)?,
            outputs: each(g, output)?,
            verdict: verdict(h)?,
        }),
        (b"return", [a, b, c, d, e, f, g, h, i, j]) => Form::Return(Return {
            id: id(a)?,
            fee: number(b)?,
            size: number(c)?,
            cost: short(d)?,
            measured: number_or(e, b"none")?,
            created: number(f)?,
            checked: number(g)?,
            peer: number_or(h, b"local")?,
            inputs: each(i, id)?,
            outputs: each(j, box_and_height)?,
        }),
        (b"block", [a, b]) => Form::Block { time: number(a)?, txs: each(b, confirmed)? },
        (b"invalidate", [a, b]) => Form::Invalidate { time: number(a)?, id: id(b)? },
        (b"open", [a, b, c]) => {
            Form::Open { time: number(a)?, limit: number(b)?, preheader: short(c)? }
        }
        (b"next", []) => Form::Next,
        (b"answer", [a, b]) => Form::Answer { flags: each(a, flag)?, verdict: verdict(b)? },
        (b"rebroadcast", [a]) => Form::Rebroadcast(each(a, id)?),
        (b"list", []) => Form::List,
        (b"top", [a]) => Form::Top(number(a)?),
        (b"len", []) => Form::Len,
        (b"contains", [a, b]) => Form::Contains { time: number(a)?, id: id(b)? },
        (b"spending", [a]) => Form::Spending(id(a)?),
        (b"fee", [a, b]) => Form::Fee { minutes: short(a)?, size: short(b)? },
        (b"wait", [a, b, c]) => Form::Wait { time: number(a)?, fee: number(b)?, size: short(c)? },
        (b"histogram", [a, b, c]) => {
            Form::Histogram { time: number(a)?, bins: short(b)?, longest: number(c)? }
        }
        (b"charges", []) => Form::Charges,
        (b"written", []) => Form::Written,
        _ => return None,
    })
}

fn word<'a>(node: &Node<'a>) -> Option<&'a [u8]> {
    match node {
        Node::Word(word) => Some(word),
        Node::List(_) => None,
    }
}

fn list<'b, 'a>(node: &'b Node<'a>) -> Option<&'b [Node<'a>]> {
    match node {
        Node::Word(_) => None,
        Node::List(members) => Some(members),
    }
}

fn each<T>(node: &Node, read: fn(&Node) -> Option<T>) -> Option<Vec<T>> {
    list(node)?.iter().map(read).collect()
}

/// A decimal number of 64 bits; leading zeros are allowed.
fn number(node: &Node) -> Option<u64> {
    let digits = word(node)?;
    if digits.is_empty() {
        return None;
    }
    digits.iter().try_fold(0u64, |sum, digit| {
        let digit = digit.is_ascii_digit().then(|| u64::from(digit - b'0'))?;
        sum.checked_mul(10)?.checked_add(digit)
    })
}

/// A decimal number of 32 bits.
fn short(node: &Node) -> Option<u32> {
    number(node)?.try_into().ok()
}

fn number_or(node: &Node, other: &[u8]) -> Option<Option<u64>> {
    if word(node)? == other {
        Some(None)
    } else {
        number(node).map(Some)
    }
}

/// True for the first word, false for the second.
fn choice(node: &Node, yes: &[u8], no: &[u8]) -> Option<bool> {
    let word = word(node)?;
    if word == yes {
        Some(true)
    } else if word == no {
        Some(false)
    } else {
        None
    }
}

/// 1 to 64 hexadecimal digits, padded on the left.
fn id(node: &Node) -> Option<Id> {
    let digits = word(node)?;
    if digits.is_empty() || digits.len() > 64 {
        return None;
    }
    let mut id = [0u8; 32];
    for (place, digit) in digits.iter().rev().enumerate() {
        let value = (*digit as char).to_digit(16)? as u8;
        id[31 - place / 2] |= value << (4 * (place % 2));
    }
    Some(id)
}

fn flag(node: &Node) -> Option<bool> {
    choice(node, b"set", b"not")
}

fn input(node: &Node) -> Option<(Id, bool)> {
    match list(node)? {
        [a, b] => Some((id(a)?, flag(b)?)),
        _ => None,
    }
}

fn output(node: &Node) -> Option<Output> {
    match list(node)? {
        [a, b, c, d] => Some(Output {
            box_id: id(a)?,
            value: number(b)?,
            fee: choice(c, b"fee", b"pay")?,
            height: short(d)?,
        }),
        _ => None,
    }
}

fn box_and_height(node: &Node) -> Option<(Id, u32)> {
    match list(node)? {
        [a, b] => Some((id(a)?, short(b)?)),
        _ => None,
    }
}

fn confirmed(node: &Node) -> Option<(Id, Vec<Id>)> {
    match list(node)? {
        [a, b] => Some((id(a)?, each(b, id)?)),
        _ => None,
    }
}

fn verdict(node: &Node) -> Option<Verdict> {
    match list(node)? {
        [a, b] if word(a)? == b"ok" => Some(Verdict::Ok(number(b)?)),
        [a] if word(a)? == b"bad" => Some(Verdict::Bad),
        [a] if word(a)? == b"none" => Some(Verdict::None),
        _ => None,
    }
}

/// An id as it is printed: lower case, leading zeros dropped, 0 for zero.
pub fn hex(id: &Id) -> String {
    let all: String = id.iter().map(|b| format!("{b:02x}")).collect();
    let short = all.trim_start_matches('0');
    if short.is_empty() { "0".into() } else { short.into() }
}

#[cfg(test)]
#[path = "forms/tests.rs"]
mod tests;
