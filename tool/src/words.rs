//! Answers and refusals in the bench's words.

use stobbarel::{Answer, Refusal, Version, Vote};

/// A refusal's name and when it is given, without its number.
pub fn refusal(refusal: Refusal) -> String {
    let lacking = refusal.lacking().map_or(String::new(), |lacking| format!(", it lacks {lacking}"));
    format!("{}{lacking}", refusal.words())
}

/// The bench's words for an answer; it does not print how many entries were visited.
pub fn answer(answer: Result<Answer, Refusal>) -> String {
    match answer {
        Ok(Answer::Voted(Vote::Commit, _)) => "commit".into(),
        Ok(Answer::Voted(Vote::Abort(reason), _)) => format!("abort {}", u8::from(reason)),
        Ok(Answer::Voted(Vote::Waiting, _)) => "wait".into(),
        Ok(Answer::Decided(decision)) => format!("decided {decision}"),
        Ok(Answer::Logged(decision, view)) => format!("logged {decision} {view}"),
        Ok(Answer::Done) => "done".into(),
        Ok(Answer::Found { committed, undecided }) => format!("{} {}", found(committed), found(undecided)),
        Ok(Answer::Elected { decision, view, leader }) => format!("elect {decision} {view} {leader}"),
        Err(refusal) => match refusal.lacking() {
            Some(lacking) => format!("refused {} {lacking}", refusal.number()),
            None => format!("refused {}", refusal.number()),
        },
    }
}

/// A version and its value, 0 and 0 where there is none.
fn found(version: Option<Version>) -> String {
    version.map_or("0 0".into(), |Version { stamp, value }| format!("{stamp} {value}"))
}

/// Why a box voted abort or refused; nothing beside any other answer.
pub(crate) fn why(answer: Result<Answer, Refusal>) -> Option<String> {
    match answer {
        Ok(Answer::Voted(Vote::Abort(reason), _)) => Some(reason.to_string()),
        Ok(_) => None,
        Err(given) => Some(refusal(given)),
    }
}
