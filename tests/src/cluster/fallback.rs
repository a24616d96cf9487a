//! What finishes a transaction that a dead gateway left: gateways that take over and invoke the fallback, leaders, sound ones and liars, in several views, and what the
//! cluster sees of it.

use super::*;
use crate::model::ElectionReply;

/// Which views an IV lists.
#[derive(Clone, Copy)]
pub enum Told {
    /// Those that the gateway was told.
    Heard,
    /// This one, of 3f + 1 boxes: they are under no premise.
    Many(u16),
    /// This one, of f + 1 boxes.
    Few(u16),
}

/// What is wrong with a leader's decision.
#[derive(Clone, Copy, PartialEq)]
pub enum Lie {
    None,
    /// Fewer answers than 4f + 1, most of them for it.
    Few,
    /// More.
    Many,
    /// It is not the majority's.
    Minority,
    /// All answers are of the view before.
    LowerView,
    /// They are of any views up to it.
    AnyViews,
    /// Another box leads.
    Leader,
}

// ---- gateways

impl Cluster<'_> {
    fn some_of_all(&mut self) -> u32 {
        self.some_boxes().into_iter().fold(0, |mask, number| mask | 1 << number)
    }

    fn some_told(&mut self) -> Told {
        match self.random.below(20) {
            0..=14 => Told::Heard,
            15 | 16 => Told::Many(self.random.below(3) as u16),
            17 | 18 => Told::Few(self.random.between(1, 3) as u16),
            _ => {
                let high = self.random.one_of(&[255, 256, 65534, 65535]);
                self.random.one_of(&[Told::Many(high), Told::Few(high)])
            }
        }
    }

    fn some_lie(&mut self) -> Lie {
        if self.random.chance(60) {
            return Lie::None;
        }
        self.random.one_of(&[Lie::Few, Lie::Many, Lie::Minority, Lie::LowerView, Lie::AnyViews, Lie::Leader])
    }

    /// A write that some boxes vote against, for an RD: with the liars' help both decisions can be logged. A gateway has one logged here and the other there, or one
    /// everywhere, and dies. Another takes over, asks what is logged, and invokes the fallback; then it brings what leaders decide.
    pub(super) fn leave_it_split(&mut self) -> Result<(), String> {
        let (stamp, key) = (self.unused_stamp(2), self.some_key());
        let tx = transaction(stamp, &[], &[(key, 1)]);
        let [to_commit, to_abort] = [Decision::Commit, Decision::Abort].map(|wanted| {
            let gateway = self.new_gateway(tx.clone());
            self.gateways[gateway].wants = Some(wanted);
            gateway
        });
        let all = (1u32 << self.boxes.len()) - 1;
        let against = self.few_of(all & !self.liars, 2 * self.f);
        // mostly half of them; or all, or all but a few
        let committed = match self.random.below(10) {
            0 => all,
            1 => 0,
            2 => all & !self.few_of(all, self.f),
            _ => self.about_half(all),
        };
        let forgotten = if self.random.chance(30) { self.few_of(all, self.f) } else { 0 };
        let unaware = if self.random.chance(30) { forgotten } else { 0 };
        self.script.extend([(to_abort, Act::ReadAt(against, key, stamp + 1)), (to_commit, Act::AskAt(all & !unaware))]);
        self.script.extend([(to_commit, Act::LogAt(committed & !forgotten)), (to_abort, Act::LogAt(all & !committed & !forgotten))]);
        self.script.extend([(to_commit, Act::Die), (to_abort, Act::Die)]);
        let (body, sly) = (self.gateways[to_commit].body, self.random.chance(70));
        let rescuer = self.gateway(body, sly);
        self.gateways[rescuer].wants = None;
        self.counts.count("a body taken over by another gateway");
        let again = if self.random.chance(50) { all & !forgotten } else { all };
        self.script.extend([(rescuer, Act::LogAt(again)), (rescuer, Act::InvokeAt(all, Told::Heard))]);
        for act in self.rescue(body, all, committed) {
            self.script.push_back((rescuer, act));
        }
        self.script.extend([(rescuer, Act::LogAt(again)), (rescuer, Act::Prove)]);
        // what is decided by then may go, and a leader come after with the other decision
        if self.random.chance(30) {
            let (view, decision) = (self.random.one_of(&[1, 1, 2]), self.random.one_of(&[Decision::Commit, Decision::Abort]));
            self.script.extend([(rescuer, Act::Prove), (rescuer, Act::Prove), (rescuer, Act::ForgetAt(all, stamp))]);
            self.script.extend([(rescuer, Act::LeadAt(all, view, decision, Lie::None)), (rescuer, Act::LeadAt(all, view, other(decision), Lie::None))]);
            self.script.extend([(rescuer, Act::InvokeAt(all, Told::Heard)), (rescuer, Act::Prove)]);
        }
        Ok(())
    }

    fn about_half(&mut self, of: u32) -> u32 {
        numbers(of).into_iter().filter(|_| self.random.chance(50)).fold(0, |mask, number| mask | 1 << number)
    }

    /// What whoever takes over does, and leaders with him: sound ones as they are elected; or a liar that says one thing here and the other there, or the other later,
    /// having first turned a few of those that had logged it; or a liar in one view and another in the next, with an IV between that would bring boxes back; or anything.
    fn rescue(&mut self, body: usize, all: u32, committed: u32) -> Vec<Act> {
        let decision = self.random.one_of(&[Decision::Commit, Decision::Abort]);
        let against = if decision == Decision::Commit { all & !committed } else { committed };
        let (here, few, lie) = (self.about_half(all), self.few_of(against, self.f), self.some_lie());
        let lead = |boxes, view, decision, lie| Act::LeadAt(boxes, view, decision, lie);
        self.seen[body].slow_leaders = self.random.chance(60);
        match self.random.below(10) {
            0 => vec![Act::Prove],
            1 => vec![lead(here, 1, decision, Lie::None), lead(all & !here, 1, other(decision), lie), Act::LogAt(all)],
            2 => vec![Act::LogAt(all), lead(few, 1, decision, Lie::None), Act::LogAt(all), lead(all, 1, other(decision), Lie::None)],
            3 => vec![lead(all, 1, decision, Lie::None), lead(all, 1, other(decision), lie)],
            4 => vec![Act::InvokeAt(all, Told::Heard), lead(all, 1, decision, Lie::None), lead(all, 2, other(decision), lie)],
            5 => {
                vec![Act::InvokeAt(all, Told::Heard), Act::InvokeAt(all, Told::Many(0)), lead(all, 1, decision, Lie::None), lead(all, 2, other(decision), lie)]
            }
            6 => vec![lead(all, 1, decision, Lie::None), lead(all, 2, other(decision), Lie::LowerView)],
            7 => vec![lead(all, 1, decision, Lie::None), Act::InvokeAt(all, Told::Heard), lead(all, 2, other(decision), lie)],
            _ => (0..self.random.between(2, 8)).map(|_| self.anything(all)).collect(),
        }
    }

    /// An IV, a leader's decision, an LG or a proof, to all of these or to some.
    pub(super) fn anything(&mut self, all: u32) -> Act {
        let boxes = if self.random.chance(60) { all } else { self.some_of_all() };
        match self.random.below(20) {
            0..=6 => Act::InvokeAt(boxes, self.some_told()),
            7..=15 => {
                let (view, decision) = (self.random.one_of(&[1, 1, 1, 2, 2, 3]), self.random.one_of(&[Decision::Commit, Decision::Abort]));
                Act::LeadAt(boxes, view, decision, self.some_lie())
            }
            16 | 17 => Act::LogAt(boxes),
            _ => Act::Prove,
        }
    }

    pub(super) fn die(&mut self, from: usize) {
        let gateway = &mut self.gateways[from];
        gateway.alive = false;
        self.counts.count("a gateway died");
        let body = &self.judge.bodies[gateway.body];
        if [Decision::Commit, Decision::Abort].iter().all(|decision| body.given(Word::Log(*decision, 0)) != 0) {
            self.counts.count("a gateway died after a split log");
        }
    }

    /// An IV to each box.
    pub(super) fn invoke_these(&mut self, from: usize, boxes: Vec<usize>, told: Told) {
        let views = match told {
            Told::Heard => match self.one.told(&self.gateways[from].views, self.f) {
                Ok(views) if !views.is_empty() => views,
                // nobody has told one: all are where an LG leaves them
                _ => (0..self.boxes.len() as u8).map(|number| (number, 0)).collect(),
            },
            Told::Many(view) => self.made_up(3 * self.f + 1, view),
            Told::Few(view) => self.made_up(self.f + 1, view),
        };
        for to in boxes {
            self.letters.push(Letter { from, to, mark: *b"IV", load: Load::Views(views.clone()) });
        }
    }

    fn made_up(&mut self, count: u64, view: u16) -> Vec<(u8, u16)> {
        self.counts.count("a view that was made up");
        (0..count as u8).map(|number| (number, view)).collect()
    }

    /// A leader's decision to each box.
    pub(super) fn lead_these(&mut self, from: usize, boxes: Vec<usize>, view: u16, decision: Decision, lie: Lie) {
        let Some(election) = self.election(from, view, decision, lie).or_else(|| self.election(from, view, other(decision), lie)) else {
            return;
        };
        if lie != Lie::None {
            self.counts.count("a leader's decision with a lie in it");
        }
        for to in boxes {
            self.letters.push(Letter { from, to, mark: *b"LD", load: Load::Election(election.clone()) });
        }
    }

    /// Of the election answers that were given, and of what the liars say, those that make this decision the majority's; none where it cannot be made.
    fn election(&mut self, from: usize, view: u16, decision: Decision, lie: Lie) -> Option<Election> {
        let body = self.gateways[from].body;
        let (all, stamp) = (PAPER.row(self.f)[4], self.judge.bodies[body].tx.stamp);
        let [mut agree, mut differ] = [decision, other(decision)].map(|named| self.answers(body, view, named, lie));
        if lie == Lie::Minority {
            std::mem::swap(&mut agree, &mut differ);
        }
        // a liar is named once, and says what is wanted
        differ.retain(|(number, ..)| agree.iter().all(|one| one.0 != *number));
        let wanted = match lie {
            Lie::Few => (2 * agree.len()).saturating_sub(1).min(all - 1),
            Lie::Many => agree.len() + differ.len(),
            _ => all,
        };
        let take = if self.random.chance(50) { agree.len().min(wanted) } else { agree.len().min(wanted / 2 + 1) };
        let mut answers: Vec<(u8, Decision, u16)> = agree.into_iter().take(take).collect();
        let count = answers.len();
        answers.extend(differ.into_iter().take(wanted - count));
        if answers.len() != wanted || wanted == 0 || 2 * count <= wanted {
            return None;
        }
        answers.sort_unstable();
        let settings = Settings { f: self.f, capacity: 1, clock: 0, delta: 0 };
        let leads = PAPER.leader(&settings, view, stamp);
        let leader = if lie == Lie::Leader { (leads + 1) % settings.boxes() as u8 } else { leads };
        Some(Election { leader, decision, view, answers })
    }

    /// The boxes that can be named with this election answer, in any order, and the view that stands beside it.
    fn answers(&mut self, body: usize, view: u16, decision: Decision, lie: Lie) -> Vec<(u8, Decision, u16)> {
        let views: Vec<u16> = match lie {
            Lie::LowerView => vec![view - 1],
            Lie::AnyViews => (0..=view).rev().collect(),
            _ => vec![view],
        };
        let mut answers: Vec<(u8, Decision, u16)> = Vec::new();
        for view in views {
            for number in numbers(self.judge.bodies[body].given(Word::Elect(decision, view)) | self.liars) {
                if answers.iter().all(|one| usize::from(one.0) != number) {
                    let at = self.random.below(answers.len() as u64 + 1) as usize;
                    answers.insert(at, (number as u8, decision, view));
                }
            }
        }
        // liars first, so that as many as there are say what is wanted
        answers.sort_by_key(|one| !self.lies(one.0.into()));
        answers
    }
}

// ---- what is heard

impl Cluster<'_> {
    /// A sound box's election answer: the gateway hears its view, and carries it to the leader.
    pub(super) fn elected(&mut self, letter: &Letter, decision: Decision, view: u16, leader: u8) -> Result<(), String> {
        let body = self.gateways[letter.from].body;
        let stamp = self.judge.bodies[body].tx.stamp;
        self.counts.count(if decision == Decision::Commit { "elect commit" } else { "elect abort" });
        if self.judge.bodies[body].given(Word::Vote(other(decision))) & 1 << letter.to != 0 {
            self.counts.count("elected against the own vote");
        }
        let before = self.current.insert((letter.to, body), view).unwrap_or(0);
        match view.saturating_sub(before) {
            0 if self.judge.bodies[body].given(Word::Elect(decision, view)) & 1 << letter.to != 0 => self.counts.count("elected again, in the same view"),
            0 => {}
            1 => self.counts.count("moved on by one view"),
            _ => self.counts.count("moved on by more"),
        }
        let settings = Settings { f: self.f, capacity: 1, clock: 0, delta: 0 };
        // a box with a broken rule is judged by demand 3 alone
        if self.plan.rules.broken.is_empty() && (view < before || leader != PAPER.leader(&settings, view, stamp)) {
            return Err(format!("box {} went from view {before} to {view}, or names box {leader} as its leader", letter.to));
        }
        self.judge.note(body, letter.to, Word::Elect(decision, view))?;
        self.carry(letter, decision, view)
    }

    /// An election answer goes to the gateway's sheet of views and to the leader. A sound one decides as soon as it can; at times it is slow, or says nothing.
    fn carry(&mut self, letter: &Letter, decision: Decision, view: u16) -> Result<(), String> {
        let (body, number) = (self.gateways[letter.from].body, letter.to as u64);
        let gateway = &mut self.gateways[letter.from];
        if gateway.alive {
            self.one.tell(&mut gateway.views, self.f, number, view.into()).map_err(|number| format!("a view was refused {number}"))?;
        }
        let stamp = self.judge.bodies[body].tx.stamp;
        let settings = Settings { f: self.f, capacity: 1, clock: 0, delta: 0 };
        if self.lies(PAPER.leader(&settings, view, stamp).into()) {
            self.counts.count("a leader of the liars was elected");
            return Ok(());
        }
        let (late, slow) = (self.random.chance(10), self.seen[body].slow_leaders || self.random.chance(20));
        let sheet_view = if late { view.saturating_sub(1) } else { view };
        let (sheet, decided) = self.leaders.entry((body, sheet_view)).or_insert((ElectionSheet { view: sheet_view, commits: 0, aborts: 0 }, false));
        match self.one.elect(sheet, self.f, number, code(decision).into(), view.into())? {
            ElectionReply::Refused(number) => return Err(format!("a leader's sheet in order was refused {number}")),
            ElectionReply::OtherView => self.counts.count("an answer of another view for a leader's sheet"),
            ElectionReply::Repeat => self.counts.count("a repeat on a leader's sheet"),
            ElectionReply::Taken(0) if !*decided && !slow => {
                *decided = true;
                let election = self.one.election(sheet, self.f, stamp).map_err(|number| format!("a leader's sheet that is reached was refused {number}"))?;
                self.counts.count("a sound leader has decided");
                for to in 0..self.boxes.len() {
                    self.letters.push(Letter { from: letter.from, to, mark: *b"LD", load: Load::Election(election.clone()) });
                }
            }
            ElectionReply::Taken(_) => {}
        }
        Ok(())
    }

    /// A liar tells any view, and answers for any.
    pub(super) fn lie_of_its_view(&mut self, letter: &Letter, decision: Decision) -> Result<(), String> {
        let view = self.random.one_of(&[0, 1, 1, 1, 2, 2, 3, 65535]);
        self.carry(letter, decision, view)
    }

    /// What a log answer shows of views.
    pub(super) fn logged_in_view(&mut self, letter: &Letter, decision: Decision, view: u16) {
        let body = self.gateways[letter.from].body;
        let given = |decision, view| self.judge.bodies[body].given(Word::Log(decision, view));
        let before = given(other(decision), 0) & 1 << letter.to != 0;
        let (both_ways, anew) = (view > 0 && given(other(decision), view) != 0, given(decision, view) & 1 << letter.to == 0);
        let later = |word| matches!(word, Word::Log(_, other) if other > 0 && other != view);
        let two_views = view > 0 && self.judge.bodies[body].words().any(later);
        if letter.election().is_some() && anew {
            self.counts.count("logged as a leader decided");
            self.current.insert((letter.to, body), view);
            if before {
                self.counts.count("logged as a leader decided, against its log before");
            }
        }
        if letter.list().is_some() && view > 0 {
            self.counts.count("logged as before, in a later view");
        }
        let seen = &mut self.seen[body];
        if both_ways && !std::mem::replace(&mut seen.both_ways_later, true) {
            self.counts.count("one body logged both ways in one later view");
        }
        if two_views && !std::mem::replace(&mut seen.two_views, true) {
            self.counts.count("one body logged in two later views");
        }
    }

    /// A proof from logs where there was one of another view.
    pub(super) fn proved_twice(&mut self, body: usize, word: Word) {
        let Word::Log(decision, view) = word else { return };
        let needed = PAPER.row(self.f)[4] - self.liars.count_ones() as usize;
        let known = &self.judge.bodies[body];
        let proves = |word| matches!(word, Word::Log(named, other) if named == decision && other != view) && known.given(word).count_ones() as usize >= needed;
        if known.words().any(proves) && !std::mem::replace(&mut self.seen[body].two_proofs, true) {
            self.counts.count("proofs from logs of two views");
        }
    }

    /// A box has taken a proof of logs of a later view.
    pub(super) fn done_by_fallback(&mut self, body: usize) {
        self.counts.count("done, by logs of a later view");
        if !std::mem::replace(&mut self.seen[body].by_fallback, true) {
            self.counts.count(DECIDED_BY_FALLBACK);
        }
    }
}
