//! Boxes that lie: silent, two-faced, climbing to high views, or sowing false bodies. As leaders they tell one half of the boxes commit and the other abort, where
//! the election answers let them. They know everything at once.

use super::world::{model_decision, model_tx, Mail, Party, World};
use crate::judge::Word;
use crate::model::transaction_bytes;
use stobbarel::{in_the_way, read_message, tx_part, write_ld, Answer, Decision, Election, Holding, Message, Question, Reason, UpTo, View, Vote, LONGEST};

#[derive(Clone, Copy, Debug, PartialEq, Eq)]
pub enum Style {
    Silent,
    TwoFaced,
    /// Tells the highest view that there is.
    Climber,
    /// Hands over bodies that nobody wrote.
    Sower,
    /// Votes and logs as is wanted, and leads to both sides.
    Misleader,
}

pub const STYLES: [Style; 5] = [Style::Silent, Style::TwoFaced, Style::Climber, Style::Sower, Style::Misleader];

/// What a two-faced box votes.
const VOTES: [Vote; 5] = [Vote::Commit, Vote::Abort(Reason::Overwritten), Vote::Commit, Vote::Abort(Reason::ReadMark), Vote::Waiting];

pub fn bit(number: u8) -> u32 {
    1 << number
}

pub fn numbers(mask: u32) -> impl Iterator<Item = u8> {
    (0..26).filter(move |number| mask & bit(*number) != 0)
}

impl World {
    pub fn lie(&mut self, number: u8, from: Party, depth: u64, mail: Mail) {
        if self.style == Style::Silent {
            return;
        }
        match mail {
            Mail::Message(message) => self.lie_to(number, from, depth, &message),
            Mail::Ask(question) if self.style == Style::Sower => {
                let told = self.false_bodies(&question);
                self.send(Party::Box(number), from, depth + 1, Mail::Told(question, told));
            }
            Mail::Elect(body, _, view) => self.mislead(number, depth, &body, view),
            _ => {}
        }
    }

    fn either(&mut self) -> Decision {
        self.random.one_of(&[Decision::Commit, Decision::Abort])
    }

    fn lie_to(&mut self, number: u8, from: Party, depth: u64, message: &[u8]) {
        let (Some(body), Ok(read)) = (tx_part(self.group, message).map(<[u8]>::to_vec), read_message(self.group, message)) else { return };
        let view = if self.style == Style::Climber { View(65535) } else { self.highest(&body) };
        let answer = match read {
            Message::Prepare(_) if self.style == Style::Misleader => Answer::Voted(Vote::Commit, None),
            Message::Prepare(_) => Answer::Voted(self.random.one_of(&VOTES), None),
            Message::Log(_, list) if self.style == Style::Misleader => Answer::Logged(list.decision, View(0)),
            Message::Log(..) => Answer::Logged(self.either(), if self.random.chance(80) { View(0) } else { view }),
            Message::Invoke(tx, _) => Answer::Elected { decision: self.either(), view, leader: self.leader(tx.stamp, view) },
            Message::Lead(_, election) => Answer::Logged(self.either(), election.view),
            Message::Decide(..) => Answer::Done,
            Message::Read(..) => return,
        };
        self.send(Party::Box(number), from, depth + 1, Mail::Answer(body.clone(), Ok(answer), None));
        if let Answer::Elected { decision, view, leader } = answer {
            self.send(Party::Box(number), Party::Box(leader), depth + 1, Mail::Elect(body, decision, view));
        }
    }

    /// The highest view that a sound box stands in for a body, told or not.
    pub fn highest(&mut self, body: &[u8]) -> View {
        let number = self.body_number(body);
        let words = self.judge.bodies[number].words();
        let views = words.filter_map(|word| match word {
            Word::Elect(_, view) | Word::Log(_, view) => Some(view),
            Word::Vote(_) => None,
        });
        View(views.max().unwrap_or(0))
    }

    /// The body of another's transaction with another value in it.
    pub fn false_body(&self, body: &[u8]) -> Option<Vec<u8>> {
        let mut tx = self.tx_of(body)?;
        tx.writes.first_mut().into_iter().for_each(|(_, value)| *value += 1);
        Some(transaction_bytes(&model_tx(&tx))).filter(|other| other != body)
    }

    /// For whatever a sound box would tell of, a body that is false.
    fn false_bodies(&self, question: &Question) -> Vec<Holding> {
        let asked = |body: &[u8]| match (question, self.tx_of(body)) {
            (Question::Held(stamp), Some(tx)) => tx.stamp == *stamp,
            (Question::Way(of), Some(tx)) => self.tx_of(of).is_some_and(|of| in_the_way(&of, &tx)),
            _ => false,
        };
        let bodies: Vec<&Vec<u8>> = self.signed.iter().filter(|body| asked(body)).collect();
        let holding = |body| Holding { body, signed: true, vote: Some(Vote::Commit), logged: None, proof: None };
        bodies.into_iter().filter_map(|body| self.false_body(body)).map(holding).collect()
    }

    /// A lying leader, as soon as there are answers enough: one decision to the even boxes, the other to the odd ones, or the one that there is to a few.
    fn mislead(&mut self, number: u8, depth: u64, body: &[u8], view: View) {
        let lds = [Decision::Commit, Decision::Abort].map(|decision| self.make_ld(body, view, decision));
        // each pair of LDs once
        if !lds.iter().flatten().fold(false, |new, ld| self.led.insert(ld.clone()) | new) {
            return;
        }
        let both = lds.iter().all(|ld| ld.is_some());
        for to in 0..self.n {
            let ld = if both { &lds[usize::from(to % 2)] } else { lds.iter().find(|ld| ld.is_some()).filter(|_| to % 4 == 0).unwrap_or(&None) };
            if let Some(ld) = ld.clone().filter(|_| to != number) {
                self.send(Party::Box(number), Party::Box(to), depth + 1, Mail::Message(ld));
            }
        }
    }

    /// An LD for a decision, of election answers that were given and of what liars would say; none where it cannot be made.
    pub fn make_ld(&mut self, body: &[u8], view: View, decision: Decision) -> Option<Vec<u8>> {
        let other = decision.other();
        let [agree, differ] = [decision, other].map(|one| self.gave(body, Word::Elect(model_decision(one), view.0)));
        let needed = usize::from(self.group.log_proof());
        let mut answers: Vec<(u8, Decision, View)> = numbers(agree).map(|number| (number, decision, view)).take(needed).collect();
        if 2 * answers.len() <= needed {
            return None;
        }
        let rest = needed - answers.len();
        answers.extend(numbers(differ & !agree).map(|number| (number, other, view)).take(rest));
        answers.sort_unstable_by_key(|one| one.0);
        let tx = self.tx_of(body)?;
        let election = Election { leader: self.leader(tx.stamp, view), decision, view, answers: UpTo::gather(answers).ok()? };
        write_ld(self.group, &tx, &election, &mut [0; LONGEST]).ok().filter(|_| election.answers.len() == needed).map(<[u8]>::to_vec)
    }
}
