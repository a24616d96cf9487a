//! The passage register against a model of its own: reports, corrections and entries of random looks, most of them nearly in order.

use crate::random::Random;
use std::collections::BTreeMap;
use stobbarel::{Answer, Key, Passage, Refusal, Report, Stamp, Transaction, Values, Version};

/// What a dispatcher's program would do with four versions and four values, in the paper's words.
struct Look {
    passage: u64,
    versions: [u64; 4],
    values: [u64; 4],
}

/// Keys read with their versions, keys written with their values.
type Pairs = (Vec<(u16, u64)>, Vec<(u16, u64)>);

fn judged([_, direction, count, hot]: [u64; 4]) -> Result<(), u8> {
    match () {
        _ if direction != 0 && direction != 1 => Err(28),
        _ if !(1..=1000).contains(&count) => Err(29),
        _ if hot > count => Err(30),
        _ => Ok(()),
    }
}

impl Look {
    fn in_order(&self) -> Result<(), u8> {
        match () {
            _ if self.passage > 127 => Err(26),
            _ if self.versions.iter().any(|one| *one != self.versions[0]) => Err(27),
            _ => judged(self.values),
        }
    }

    fn report(&self) -> Result<[u64; 4], u8> {
        self.in_order()?;
        let [train, direction, count, number] = self.values;
        let from_the_front: Vec<u64> = if direction == 0 { (1..=count).collect() } else { (1..=count).rev().collect() };
        let hot = from_the_front.iter().position(|one| *one == number).map_or(0, |place| place as u64 + 1);
        Ok([train, direction, count, hot])
    }

    fn transaction(&self, stamp: u64, new: [u64; 4]) -> Result<Pairs, u8> {
        match () {
            _ if stamp == 0 => Err(5),
            _ if self.versions.iter().any(|version| *version >= stamp) => Err(7),
            _ => {
                let with = |numbers: [u64; 4]| (0..4).map(|i| (4 * self.passage as u16 + i as u16, numbers[i])).collect();
                Ok((with(self.versions), with(new)))
            }
        }
    }

    fn correct_direction(&self, stamp: u64) -> Result<Pairs, u8> {
        self.in_order()?;
        let [train, direction, count, hot] = self.values;
        self.transaction(stamp, [train, u64::from(direction == 0), count, hot])
    }

    fn correct(&self, stamp: u64, new: [u64; 4]) -> Result<Pairs, u8> {
        self.in_order()?;
        judged(new)?;
        self.transaction(stamp, new)
    }

    fn enter(&self, stamp: u64, new: [u64; 4]) -> Result<Pairs, u8> {
        judged(new)?;
        self.transaction(stamp, new)
    }
}

fn told<T, U>(answer: Result<T, Refusal>, of: impl Fn(T) -> U) -> Result<U, u8> {
    answer.map(of).map_err(Refusal::number)
}

fn made(tx: Transaction) -> Pairs {
    let reads = tx.reads.into_iter().map(|(Key(key), Stamp(version))| (key, version)).collect();
    (reads, tx.writes.into_iter().map(|(Key(key), value)| (key, value)).collect())
}

/// A version as an RD shows it, none by two zeros.
pub fn version(stamp: u64, value: u64) -> Option<Version> {
    ((stamp, value) != (0, 0)).then_some(Version { stamp: Stamp(stamp), value })
}

fn values(r: &mut Random) -> [u64; 4] {
    let odd = [0, 1, 2, 239, 240, 241, 999, 1000, 1001, u64::MAX - 1, u64::MAX];
    let count = if r.chance(80) { r.between(1, 1000) } else { r.one_of(&odd) };
    let hot = if r.chance(80) { r.below(count.saturating_add(1)) } else { r.one_of(&odd) };
    let direction = if r.chance(90) { r.below(2) } else { r.one_of(&odd) };
    [r.next(), direction, count, hot]
}

fn look(r: &mut Random) -> Look {
    let version = r.below(60);
    let versions = [0; 4].map(|_| if r.chance(97) { version } else { r.below(60) });
    Look { passage: r.below(128), versions, values: values(r) }
}

/// COUNT looks: what the register answers, beside the model. Every refusal has to occur.
pub fn check(count: u64, seed: u64) -> bool {
    let r = &mut Random::new(seed);
    let mut seen_numbers: BTreeMap<u8, u64> = BTreeMap::new();
    let mut disagreements = 0;
    for _ in 0..count {
        let model = look(r);
        let (stamp, new) = (if r.chance(95) { r.between(50, 90) } else { r.below(3) }, values(r));
        let answers = [0, 1, 2, 3].map(|i| Ok(Answer::Found { committed: version(model.versions[i], model.values[i]), undecided: None }));
        let seen = Passage(model.passage).asks(Stamp(1)).and_then(|asks| asks.seen(answers)).expect("a passage and four halves");
        let lent = Values { train: new[0], direction: new[1], axles: new[2], hot: new[3] };
        let report = told(seen.report(), |Report { train, direction, axles, hot }| [train, direction, axles, hot]);
        let turned = told(seen.correct_direction(Stamp(stamp)), made);
        let corrected = told(seen.correct(Stamp(stamp), lent), made);
        let entered = told(seen.enter(Stamp(stamp), lent), made);
        for number in [report.as_ref().err(), turned.as_ref().err(), corrected.as_ref().err(), entered.as_ref().err()].into_iter().flatten() {
            *seen_numbers.entry(*number).or_default() += 1;
        }
        let same = report == model.report()
            && turned == model.correct_direction(stamp)
            && corrected == model.correct(stamp, new)
            && entered == model.enter(stamp, new);
        disagreements += u64::from(!same);
    }
    let above = (128..140).chain([1 << 14, 1 << 62, u64::MAX]).all(|passage| Passage(passage).asks(Stamp(1)) == Err(Refusal::Passage));
    println!("passages: {count} looks, seed {seed}: {disagreements} disagreements; refusals told {seen_numbers:?}");
    let all = [5, 7, 27, 28, 29, 30].iter().all(|number| seen_numbers.contains_key(number));
    disagreements == 0 && above && all
}
