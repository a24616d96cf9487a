//! A line of text as its record. What is wrong is told with its column, from 1; what the line cannot show is the writer's to refuse.

use crate::record::{write, Record};
use stobbarel::layout::KEYS;
use stobbarel::{Decision, Election, Group, Key, Message, Refusal, Stamp, Transaction, UpTo, View, Views, VoteList};

/// Where a line goes wrong, and why.
#[derive(Clone, Debug, PartialEq, Eq)]
pub struct Wrong {
    /// From 1, in characters; behind the last one where the line ends too soon.
    pub column: usize,
    /// What is due there.
    pub why: String,
}

type Heard<T> = Result<T, Wrong>;

/// A word, a number or one of `@ = + - :`, and the column where it begins.
struct Token<'a> {
    column: usize,
    text: &'a str,
}

const SIGNS: [char; 5] = ['@', '=', '+', '-', ':'];

/// How many bytes the token in front has.
fn token_length(rest: &str) -> usize {
    let ends = |letter: char| letter.is_whitespace() || letter == '#' || SIGNS.contains(&letter);
    match rest.chars().next() {
        Some(first) if SIGNS.contains(&first) => first.len_utf8(),
        _ => rest.find(ends).unwrap_or(rest.len()),
    }
}

/// A line without its comment, in tokens, and the column behind the last.
fn tokens(line: &str) -> (Vec<Token<'_>>, usize) {
    let (mut all, mut rest, mut column, mut end) = (Vec::new(), line, 1, 1);
    while let Some(first) = rest.chars().next().filter(|first| *first != '#') {
        let taken = if first.is_whitespace() { first.len_utf8() } else { token_length(rest) };
        let text = &rest[..taken];
        let behind = column + text.chars().count();
        if !first.is_whitespace() {
            all.push(Token { column, text });
            end = behind;
        }
        (rest, column) = (&rest[taken..], behind);
    }
    (all, end)
}

/// What is still to be heard of a line.
struct Rest<'a> {
    tokens: Vec<Token<'a>>,
    at: usize,
    end: usize,
    boxes: u8,
}

/// A number's name and range.
#[derive(Clone, Copy)]
struct Range {
    what: &'static str,
    low: u64,
    high: u64,
}

const fn range(what: &'static str, low: u64, high: u64) -> Range {
    Range { what, low, high }
}

const F: Range = range("f", 1, 5);
const CAPACITY: Range = range("a capacity", 1, 255);
const DELTA: Range = range("delta", 0, u64::MAX);
const CLOCK: Range = range("a clock", 0, u64::MAX);
const LOW: Range = range("a low mark", 0, u64::MAX);
const STAMP: Range = range("a stamp", 1, u64::MAX);
const KEY: Range = range("a key", 0, KEYS as u64 - 1);
const VALUE: Range = range("a value", 0, u64::MAX);
const VIEW: Range = range("a view", 0, u16::MAX as u64);
const MOST: usize = 8;

fn is_number(text: &str) -> bool {
    text.chars().all(|letter| letter.is_ascii_digit())
}

impl Rest<'_> {
    fn text(&self) -> Option<&str> {
        self.tokens.get(self.at).map(|token| token.text)
    }

    fn column(&self) -> usize {
        self.tokens.get(self.at).map_or(self.end, |token| token.column)
    }

    fn wrong<T>(&self, why: String) -> Heard<T> {
        Err(Wrong { column: self.column(), why })
    }

    /// A number within its range.
    fn number(&mut self, range: Range) -> Heard<u64> {
        let Range { what, low, high } = range;
        let Some(text) = self.text().filter(|text| is_number(text)) else {
            return self.wrong(format!("{what} is due, {low} to {high}"));
        };
        // Digits that are no number of 64 bits are above all ranges.
        match text.parse::<u64>().ok().filter(|number| (low..=high).contains(number)) {
            None => self.wrong(format!("{what} is {low} to {high}")),
            Some(number) => {
                self.at += 1;
                Ok(number)
            }
        }
    }

    /// Whether this word stands next; it is taken.
    fn takes(&mut self, word: &str) -> bool {
        let stands = self.text() == Some(word);
        self.at += usize::from(stands);
        stands
    }

    fn word(&mut self, word: &str) -> Heard<()> {
        match self.takes(word) {
            true => Ok(()),
            false => self.wrong(format!("{word} is due")),
        }
    }

    /// One of two words; whether it is the first.
    fn either(&mut self, first: &str, second: &str) -> Heard<bool> {
        match (self.takes(first), self.takes(second)) {
            (false, false) => self.wrong(format!("{first} or {second} is due")),
            (is_first, _) => Ok(is_first),
        }
    }

    fn view(&mut self) -> Heard<View> {
        Ok(View(self.number(VIEW)? as u16))
    }

    fn box_range(&self, what: &'static str) -> Range {
        range(what, 0, u64::from(self.boxes) - 1)
    }

    /// `commit` or `abort`.
    fn decision(&mut self) -> Heard<Decision> {
        Ok(if self.either("commit", "abort")? { Decision::Commit } else { Decision::Abort })
    }

    /// `+` for commit or `-` for abort.
    fn answer(&mut self) -> Heard<Decision> {
        match (self.takes("+"), self.takes("-")) {
            (false, false) => self.wrong("+ (commit) or - (abort) is due".into()),
            (commit, _) => Ok(if commit { Decision::Commit } else { Decision::Abort }),
        }
    }

    /// One or more of a kind, each beginning with a number above the one before it.
    fn rising<T>(&mut self, first: Range, each: impl Fn(&mut Self, u64) -> Heard<T>) -> Heard<Vec<T>> {
        let (mut all, mut last) = (Vec::new(), None);
        while all.is_empty() || self.text().is_some_and(is_number) {
            let column = self.column();
            let number = self.number(first)?;
            if let Some(last) = last.filter(|last| *last >= number) {
                return Err(Wrong { column, why: format!("{} is above the one before it, {last}", first.what) });
            }
            last = Some(number);
            all.push(each(self, number)?);
        }
        Ok(all)
    }

    /// Up to eight pairs with a sign between, behind their word; none without it.
    fn pairs(&mut self, word: &str, sign: &str, second: Range) -> Heard<UpTo<(Key, u64), MOST>> {
        if !self.takes(word) {
            return Ok(UpTo::new());
        }
        let columns: Vec<usize> = self.tokens[self.at..].iter().map(|token| token.column).collect();
        let pairs = self.rising(KEY, |rest, key| {
            rest.word(sign)?;
            Ok((Key(key as u16), rest.number(second)?))
        })?;
        UpTo::gather(pairs).map_err(|_| Wrong { column: columns[3 * MOST], why: format!("{MOST} {word} at most") })
    }

    /// A stamp, then reads, then writes.
    fn transaction(&mut self) -> Heard<Transaction> {
        let stamp = self.number(STAMP)?;
        let reads = self.pairs("reads", "@", range("a version below the stamp", 0, stamp - 1))?;
        let writes = self.pairs("writes", "=", VALUE)?;
        if reads.is_empty() && writes.is_empty() {
            return self.wrong("reads or writes is due".into());
        }
        let reads = self.fits(UpTo::gather(reads.into_iter().map(|(key, version)| (key, Stamp(version)))))?;
        Ok(Transaction { stamp: Stamp(stamp), reads, writes })
    }

    /// There are no more boxes than a list has places, so that those of a group always fit.
    fn fits<T>(&self, list: Result<T, Refusal>) -> Heard<T> {
        list.or_else(|refusal| self.wrong(refusal.to_string()))
    }

    fn listed(&mut self) -> Heard<UpTo<(u8, Decision), 26>> {
        let numbers = self.box_range("a box number");
        let listed = self.rising(numbers, |rest, number| Ok((number as u8, rest.answer()?)))?;
        self.fits(UpTo::gather(listed))
    }

    /// `votes` or `logs`, the decision, the view of logs, and each box's answer.
    fn list(&mut self) -> Heard<VoteList> {
        if self.either("votes", "logs")? {
            return Ok(VoteList::votes(self.decision()?, self.listed()?));
        }
        let decision = self.decision()?;
        self.word("view")?;
        Ok(VoteList::logs(self.view()?, decision, self.listed()?))
    }

    fn views(&mut self) -> Heard<Views> {
        self.word("views")?;
        let numbers = self.box_range("a box number");
        let views = self.rising(numbers, |rest, number| {
            rest.word(":")?;
            Ok((number as u8, rest.view()?))
        })?;
        self.fits(Views::gather(views))
    }

    fn election(&mut self) -> Heard<Election> {
        self.word("leader")?;
        let leader = self.number(self.box_range("a leader"))? as u8;
        self.word("decision")?;
        let decision = self.decision()?;
        self.word("view")?;
        let view = self.view()?;
        self.word("answers")?;
        let numbers = self.box_range("a box number");
        let answers = self.rising(numbers, |rest, number| Ok((number as u8, rest.answer()?, rest.view()?)))?;
        let answers = self.fits(UpTo::gather(answers))?;
        Ok(Election { leader, decision, view, answers })
    }

    fn gp(&mut self) -> Heard<Record> {
        self.word("f")?;
        let f = self.number(F)? as u8;
        self.word("capacity")?;
        let capacity = self.number(CAPACITY)? as u8;
        self.word("delta")?;
        Ok(Record::Gp { f, capacity, delta: self.number(DELTA)? })
    }

    fn ck(&mut self) -> Heard<Record> {
        self.word("clock")?;
        Ok(Record::Ck(self.number(CLOCK)?))
    }

    fn rd(&mut self) -> Heard<Message> {
        let key = Key(self.number(KEY)? as u16);
        self.word("at")?;
        Ok(Message::Read(key, Stamp(self.number(STAMP)?)))
    }

    fn record(&mut self) -> Heard<Record> {
        let mark = self.text().unwrap_or_default().to_string();
        self.at += 1;
        let message = match mark.as_str() {
            "GP" => return self.gp(),
            "CK" => return self.ck(),
            "LM" => return self.number(LOW).map(Record::Lm),
            "TX" => return self.transaction().map(Record::Tx),
            "VL" => return self.list().map(Record::Vl),
            "VS" => return self.views().map(Record::Vs),
            "EL" => return self.election().map(Record::El),
            "PR" => Message::Prepare(self.transaction()?),
            "LG" => Message::Log(self.transaction()?, self.list()?),
            "DC" => Message::Decide(self.transaction()?, self.list()?),
            "RD" => self.rd()?,
            "IV" => Message::Invoke(self.transaction()?, self.views()?),
            "LD" => Message::Lead(self.transaction()?, self.election()?),
            _ => {
                self.at -= 1;
                return self.wrong("a mark is due: GP, CK, LM, PR, LG, DC, RD, IV, LD, TX, VL, VS or EL".into());
            }
        };
        Ok(Record::Message(message))
    }
}

/// The record of a line and its bytes; none for one that is empty or a comment. Box numbers are those of the group.
pub fn pack_line(group: Group, line: &str) -> Result<Option<(Record, Vec<u8>)>, Wrong> {
    let (tokens, end) = tokens(line);
    let mut rest = Rest { tokens, at: 0, end, boxes: group.boxes() };
    if rest.tokens.is_empty() {
        return Ok(None);
    }
    let first = rest.column();
    let record = rest.record()?;
    if rest.text().is_some() {
        return rest.wrong("this is no part of the record".into());
    }
    // The writer has the last word.
    match write(group, &record) {
        Ok(bytes) => Ok(Some((record, bytes))),
        Err(refusal) => Err(Wrong { column: first, why: refusal.to_string() }),
    }
}
