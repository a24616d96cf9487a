//! The fallback of the paper, once more in ordinary Rust: views, IV and LD at a box; the sheets of a gateway that takes over and of a leader.

use super::*;

// ---- a box

impl Rules {
    /// The highest view that so many of these boxes are in or have passed.
    fn reached(self, views: &[(u8, u16)], needed: usize) -> Option<u16> {
        let mut told: Vec<u16> = views.iter().map(|one| one.1).collect();
        if !self.hold(Rule::HigherCount) {
            return told.iter().copied().filter(|view| told.iter().filter(|other| *other == view).count() >= needed).max();
        }
        told.sort_unstable();
        told.reverse();
        told.get(needed - 1).copied()
    }

    /// The paper's two rules; the view may be one that there is not.
    fn next_view(self, f: u64, current: u16, views: &[(u8, u16)]) -> (u32, &'static str) {
        let row = PAPER.row(f);
        let (own, [many, few]) = (u32::from(current), [row[0], row[1]].map(|needed| self.reached(views, needed).map(u32::from)));
        match (many, few) {
            (Some(view), _) => {
                let after = view + u32::from(self.hold(Rule::ToTheViewAfter));
                match after > own {
                    true => (after, "IV, by 3f + 1 views to the one after"),
                    false if self.hold(Rule::NeverBack) => (own, "IV, by 3f + 1 views nowhere"),
                    false => (after, "IV, by 3f + 1 views nowhere"),
                }
            }
            (None, Some(view)) if view > own && self.hold(Rule::FewMove) => (view, "IV, by f + 1 views up to them"),
            (None, Some(_)) => (own, "IV, by f + 1 views nowhere"),
            (None, None) => (own, "IV, too few views"),
        }
    }

    /// Box (v + stamp) mod n, a sum of whole numbers.
    pub fn leader(self, settings: &Settings, view: u16, stamp: u64) -> u8 {
        let sum = u128::from(stamp) + u128::from(view);
        let sum = if self.hold(Rule::WholeSum) { sum } else { u128::from(sum as u64) };
        (sum % u128::from(settings.boxes())) as u8
    }

    /// What is wrong with a leader's decision, if anything.
    fn misled(self, settings: &Settings, stamp: u64, led: &Election) -> Option<&'static str> {
        let (all, view) = (PAPER.row(settings.f)[4], led.view);
        let agree = led.answers.iter().filter(|(_, decision, _)| *decision == led.decision).count();
        let views: Vec<u16> = led.answers.iter().map(|one| one.2).collect();
        let of_the_view = views.iter().all(|one| *one == view)
            || !self.hold(Rule::AnswersOfOneView)
            || !self.hold(Rule::AnswersOfTheView) && views[0] < view && views.iter().all(|one| *one == views[0]);
        let number = match led.answers.len() {
            count if count < all => !self.hold(Rule::AllAnswer),
            count if count > all => !self.hold(Rule::NoMoreAnswer),
            _ => true,
        };
        match () {
            _ if led.leader != self.leader(settings, view, stamp) && self.hold(Rule::LeaderLeads) => Some("LD 23, another leads"),
            _ if !number && led.answers.len() < all => Some("LD 23, too few answers"),
            _ if !number => Some("LD 23, too many answers"),
            _ if !of_the_view => Some("LD 23, an answer of another view"),
            _ if 2 * agree <= led.answers.len() && self.hold(Rule::MajorityDecides) => Some("LD 23, not the majority"),
            _ => None,
        }
    }

    /// The box's view, or its logged view, forbids it.
    fn passed(self, led: u16, current: u16, logged: u16) -> Option<&'static str> {
        if current > led && self.hold(Rule::NotPassed) {
            return Some("LD 21, the current view is above");
        }
        match logged.cmp(&led) {
            std::cmp::Ordering::Less => None,
            std::cmp::Ordering::Equal if !self.hold(Rule::LogStrictlyBelow) => None,
            _ if !self.hold(Rule::LogBelow) => None,
            _ if led == 0 => Some("LD 21, view 0"),
            _ => Some("LD 21, the logged view is not below"),
        }
    }
}

impl Store<'_> {
    /// The undecided entry of this body: its place, or none where nothing is held; or the answer that is due before the message is looked at further.
    fn undecided(&mut self, tx: &Transaction, case: [&'static str; 2]) -> Result<Option<usize>, Answer> {
        let Some(place) = self.place(tx.stamp) else { return Ok(None) };
        let held = &self.entries[place];
        if held.body != *tx {
            self.met.push(case[0]);
            return Err(Answer::Refused(OTHER_BODY));
        }
        match held.decision {
            Some(decided) => {
                self.met.push(case[1]);
                Err(Answer::Decided(decided))
            }
            None => Ok(Some(place)),
        }
    }

    /// A box moves on, and sends its election answer only if it has logged.
    pub(super) fn invoke(&mut self, tx: Transaction, views: &[(u8, u16)], settings: &Settings) -> Answer {
        let place = match self.undecided(&tx, ["IV 9", "IV, decided"]) {
            Err(answer) => return answer,
            Ok(None) => {
                self.met.push("IV 22, not held");
                return Answer::Refused(NOT_LOGGED);
            }
            Ok(Some(place)) => place,
        };
        let held = &self.entries[place];
        let (next, how) = self.rules.next_view(settings.f, held.view, views);
        let last = next > u32::from(u16::MAX);
        if last && !self.rules.hold(Rule::NotLoggedFirst) {
            return Answer::Refused(LAST_VIEW);
        }
        let Some((logged, _)) = held.log else {
            self.met.push(if last { "IV 22, before 24" } else { "IV 22, nothing logged" });
            return Answer::Refused(NOT_LOGGED);
        };
        self.met.push(how);
        if last {
            return Answer::Refused(LAST_VIEW);
        }
        let decision = match held.vote {
            Vote::Commit if !self.rules.hold(Rule::ElectsItsLog) => Decision::Commit,
            Vote::Abort(_) if !self.rules.hold(Rule::ElectsItsLog) => Decision::Abort,
            _ => logged,
        };
        if matches!((held.vote, decision), (Vote::Commit, Decision::Abort) | (Vote::Abort(_), Decision::Commit)) {
            self.met.push("IV, elects against its vote");
        }
        let view = next as u16;
        if self.rules.hold(Rule::ViewStored) {
            self.entries[place].view = view;
        }
        self.touched = Some(place);
        Answer::Elected { decision, view, leader: self.rules.leader(settings, view, tx.stamp) }
    }

    /// A leader's decision: 23, 21, 13, else it is logged with its view, which is the current one from then on.
    pub(super) fn lead(&mut self, tx: Transaction, led: &Election, settings: &Settings) -> Answer {
        let place = match self.undecided(&tx, ["LD 9", "LD, decided"]) {
            Err(answer) => return answer,
            Ok(place) => place,
        };
        let (current, logged) = place.map_or((0, 0), |place| (self.entries[place].view, self.entries[place].logged_view()));
        let (wrong, passed) = (self.rules.misled(settings, tx.stamp, led), self.rules.passed(led.view, current, logged));
        let full = place.is_none() && self.full(settings);
        let mut refusals = [(wrong, ELECTION), (passed, PASSED), (full.then_some("LD 13"), FULL)];
        if !self.rules.hold(Rule::ElectionFirst) {
            refusals.swap(0, 1);
        }
        if !self.rules.hold(Rule::PassedBeforeFull) {
            refusals.swap(1, 2);
        }
        if wrong.is_some() && passed.is_some() {
            self.met.push("LD 23, before 21");
        }
        if let Some((case, number)) = refusals.into_iter().find_map(|(case, number)| Some((case?, number))) {
            self.met.push(case);
            return Answer::Refused(number);
        }
        let log = Some((led.decision, led.view));
        let Some(place) = place else {
            self.met.push("LD new");
            let view = if self.rules.hold(Rule::NewEntryInItsView) { led.view } else { 0 };
            self.store(Entry { log, view, ..Entry::new(tx, Vote::None) }, settings);
            return Answer::Logged(led.decision, led.view);
        };
        let held = &mut self.entries[place];
        self.met.push(match held.log {
            None => "LD, nothing was logged",
            Some((before, _)) if before == led.decision => "LD, the same was logged",
            Some(_) => "LD, the other was logged",
        });
        (held.log, held.view) = (log, led.view);
        self.touched = Some(place);
        self.logged(place)
    }
}

// ---- sheets

/// What a leader's sheet says.
#[derive(Clone, Copy, Debug, PartialEq, Eq)]
pub enum ElectionReply {
    /// How many answers are lacking of 4f + 1.
    Taken(u8),
    OtherView,
    Repeat,
    Refused(u8),
}

/// A leader's sheet as it is lent: for one view.
#[derive(Clone, Copy, Debug, PartialEq, Eq)]
pub struct ElectionSheet {
    pub view: u16,
    pub commits: u32,
    pub aborts: u32,
}

/// A box's election answer: 14, 16, 5, 8; one of another view, and one of a box that is on the sheet, change nothing.
pub fn elect(sheet: &mut ElectionSheet, f: u64, number: u64, answer: u64, view: u64) -> ElectionReply {
    let settings = match group(f) {
        Ok(settings) => settings,
        Err(number) => return ElectionReply::Refused(number),
    };
    let Some([mut commits, mut aborts]) = answers_on(sheet.commits, sheet.aborts, &settings) else {
        return ElectionReply::Refused(TABLE);
    };
    match answer {
        _ if number >= settings.boxes() => return ElectionReply::Refused(RANGE),
        0 | 3.. => return ElectionReply::Refused(CODE),
        _ if view != u64::from(sheet.view) => return ElectionReply::OtherView,
        _ if commits.contains(&number) || aborts.contains(&number) => return ElectionReply::Repeat,
        1 => commits.push(number),
        2 => aborts.push(number),
    }
    (sheet.commits, sheet.aborts) = (mask(&commits), mask(&aborts));
    ElectionReply::Taken(lacking(PAPER.row(f)[4], commits.len() + aborts.len()))
}

/// What the leader decides: the lowest 4f + 1 boxes on its sheet, and their majority.
pub fn election(sheet: &ElectionSheet, f: u64, stamp: u64) -> Result<Election, u8> {
    let settings = group(f)?;
    let [commits, aborts] = answers_on(sheet.commits, sheet.aborts, &settings).ok_or(TABLE)?;
    let mut answers: Vec<(u8, Decision, u16)> = commits.iter().map(|number| (*number as u8, Decision::Commit, sheet.view)).collect();
    answers.extend(aborts.iter().map(|number| (*number as u8, Decision::Abort, sheet.view)));
    answers.sort_unstable_by_key(|one| one.0);
    let all = PAPER.row(f)[4];
    if answers.len() < all {
        return Err(ELECTION);
    }
    answers.truncate(all);
    let for_commit = answers.iter().filter(|one| one.1 == Decision::Commit).count();
    let decision = if for_commit > all / 2 { Decision::Commit } else { Decision::Abort };
    Ok(Election { leader: PAPER.leader(&settings, sheet.view, stamp), decision, view: sheet.view, answers })
}

/// The views that boxes told a gateway, as they are lent.
#[derive(Clone, Copy, Debug, PartialEq, Eq)]
pub struct ViewSheet {
    pub told: u32,
    pub views: [u16; 26],
}

impl ViewSheet {
    fn boxes(&self, settings: &Settings) -> Result<Vec<u64>, u8> {
        let told = on(self.told);
        match told.iter().all(|number| *number < settings.boxes()) {
            true => Ok(told),
            false => Err(TABLE),
        }
    }
}

/// A box told its view: 14, 16, 5; the highest that it told is kept.
pub fn tell(sheet: &mut ViewSheet, f: u64, number: u64, view: u64) -> Result<(), u8> {
    let settings = group(f)?;
    let told = sheet.boxes(&settings)?;
    let (true, Ok(view)) = (number < settings.boxes(), u16::try_from(view)) else {
        return Err(RANGE);
    };
    let place = &mut sheet.views[number as usize];
    *place = if told.contains(&number) { view.max(*place) } else { view };
    sheet.told |= 1 << number;
    Ok(())
}

/// The boxes that told a view, rising.
pub fn told(sheet: &ViewSheet, f: u64) -> Result<Vec<(u8, u16)>, u8> {
    let settings = group(f)?;
    Ok(sheet.boxes(&settings)?.into_iter().map(|number| (number as u8, sheet.views[number as usize])).collect())
}
