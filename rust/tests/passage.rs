//! The passage register by way of the package: what is refused, and in which order; reports; corrections; entries.
#![cfg(feature = "alloc")]

use stobbarel::{Answer, Group, Key, LONGEST, Passage, Refusal, Report, Stamp, Table, Values, Version, Vote, write_pr};

/// What stands there, committed by this stamp; 0 is none.
fn found(stamp: u64, value: u64) -> Result<Answer, Refusal> {
    let committed = (stamp > 0).then_some(Version { stamp: Stamp(stamp), value });
    Ok(Answer::Found { committed, undecided: None })
}

/// What four answers of one writer report of passage 5.
fn report(train: u64, direction: u64, axles: u64, hot: u64) -> Result<Report, Refusal> {
    Passage(5).asks(Stamp(60))?.report([train, direction, axles, hot].map(|value| found(50, value)))
}

#[test]
fn a_report_counts_from_the_leading_end() {
    let of = |direction, hot| Ok(Report { train: 7402, direction, axles: 240, hot });
    assert_eq!(report(7402, 0, 240, 3), of(0, 3));
    assert_eq!(report(7402, 1, 240, 3), of(1, 238));
    assert_eq!(report(7402, 1, 240, 240), of(1, 1));
    assert_eq!(report(7402, 1, 240, 1), of(1, 240));
    assert_eq!(report(7402, 0, 240, 0), of(0, 0));
    assert_eq!(report(7402, 1, 240, 0), of(1, 0));
    assert_eq!(report(7402, 1, 240, 3).unwrap().to_string(), "train 7402, direction 1, 240 axles: hot axle 238 from the leading end");
    assert_eq!(report(7402, 0, 240, 0).unwrap().to_string(), "train 7402, direction 0, 240 axles: no hot axle");
}

#[test]
fn refusals_come_in_their_order() {
    assert_eq!(Passage(128).asks(Stamp(0)).unwrap_err(), Refusal::Passage);
    assert_eq!(Passage(u64::MAX).asks(Stamp(60)).unwrap_err(), Refusal::Passage);
    assert_eq!(Passage(127).asks(Stamp(0)).unwrap_err(), Refusal::Range);
    let asks = Passage(5).asks(Stamp(60)).unwrap();
    for other in 0..4 {
        let mut answers = [2, 2, 0, 9].map(|value| found(50, value));
        answers[other] = found(51, 2);
        assert_eq!(asks.report(answers), Err(Refusal::Versions), "27 before 28, 29, 30");
    }
    assert_eq!(report(1, 2, 0, 9), Err(Refusal::Direction), "28 before 29 and 30");
    assert_eq!(report(1, 1, 0, 9), Err(Refusal::AxleCount), "29 before 30");
    assert_eq!(report(1, 1, 1001, 2000), Err(Refusal::AxleCount));
    assert_eq!(report(1, 1, 1000, 1001), Err(Refusal::HotAxle));
    assert_eq!(report(1, 1, 1000, u64::MAX), Err(Refusal::HotAxle), "before any sum");
    assert_eq!(report(1, u64::MAX, u64::MAX, u64::MAX), Err(Refusal::Direction));
    assert_eq!(report(1, 0, u64::MAX, u64::MAX), Err(Refusal::AxleCount));
    assert_eq!(asks.report([found(0, 0); 4]), Err(Refusal::AxleCount), "as at a passage never written");
    assert_eq!(asks.report([found(50, 1), found(50, 1), Err(Refusal::Ahead), found(50, 1)]), Err(Refusal::Ahead));
    assert_eq!(asks.report([found(50, 1), Ok(Answer::Done), found(50, 1), found(50, 1)]), Err(Refusal::Mark));
}

#[test]
fn the_asks_are_for_its_own_keys_at_one_stamp() {
    let group = Group::of(1).unwrap();
    for passage in [0, 5, 127] {
        let messages = Passage(passage).asks(Stamp(60)).unwrap().messages();
        for (place, message) in messages.iter().enumerate() {
            let key = Key(4 * passage as u16 + place as u16);
            assert_eq!(stobbarel::read_message(group, message), Ok(stobbarel::Message::Read(key, Stamp(60))));
        }
    }
}

#[test]
fn corrections_and_entries_read_and_write_all_four() {
    let asks = Passage(5).asks(Stamp(60)).unwrap();
    let seen = asks.seen([7402, 0, 240, 3].map(|value| found(50, value))).unwrap();
    let tx = seen.correct_direction(Stamp(70)).unwrap();
    let keys = [20, 21, 22, 23].map(Key);
    assert_eq!(tx.stamp, Stamp(70));
    assert_eq!(tx.reads, keys.map(|key| (key, Stamp(50))));
    assert_eq!(tx.writes, [(keys[0], 7402), (keys[1], 1), (keys[2], 240), (keys[3], 3)]);
    assert_eq!(seen.correct_direction(Stamp(0)), Err(Refusal::Range));
    assert_eq!(seen.correct_direction(Stamp(50)), Err(Refusal::Misbehaviour));
    let new = |direction, axles, hot| Values { train: 9, direction, axles, hot };
    assert_eq!(seen.correct(Stamp(70), new(1, 8, 8)).unwrap().writes, [(keys[0], 9), (keys[1], 1), (keys[2], 8), (keys[3], 8)]);
    assert_eq!(seen.correct(Stamp(0), new(2, 0, 9)), Err(Refusal::Direction));
    assert_eq!(seen.correct(Stamp(0), new(1, 0, 9)), Err(Refusal::AxleCount));
    assert_eq!(seen.correct(Stamp(0), new(1, 8, 9)), Err(Refusal::HotAxle));
    assert_eq!(seen.correct(Stamp(0), new(1, 8, 8)), Err(Refusal::Range));
    let never = asks.seen([found(0, 0); 4]).unwrap();
    assert_eq!(never.correct_direction(Stamp(70)), Err(Refusal::AxleCount));
    assert_eq!(never.correct(Stamp(70), new(2, 8, 8)), Err(Refusal::AxleCount), "what was seen comes first");
    assert_eq!(never.enter(Stamp(70), new(0, 8, 0)).unwrap().reads, keys.map(|key| (key, Stamp(0))));
    let apart = asks.seen([found(50, 1), found(51, 1), found(0, 0), found(53, 1)]).unwrap();
    assert_eq!(apart.correct(Stamp(70), new(0, 8, 0)), Err(Refusal::Versions));
    assert_eq!(apart.enter(Stamp(70), new(0, 8, 0)).unwrap().reads, [(keys[0], Stamp(50)), (keys[1], Stamp(51)), (keys[2], Stamp(0)), (keys[3], Stamp(53))]);
    assert_eq!(apart.enter(Stamp(53), new(0, 8, 0)), Err(Refusal::Misbehaviour));
    assert_eq!(apart.enter(Stamp(53), new(0, 1001, 0)), Err(Refusal::AxleCount));
}

#[test]
fn of_two_entries_of_one_look_one_is_voted_for() {
    let mut table = Table::new(Group::of(1).unwrap(), 8).unwrap();
    let seen = Passage(5).look(&mut table, 100, 10, Stamp(40)).unwrap();
    let mut vote = |stamp, train| {
        let entry = seen.enter(Stamp(stamp), Values { train, direction: 0, axles: 8, hot: 0 }).unwrap();
        table.receive(100, 10, write_pr(&entry, &mut [0; LONGEST]).unwrap())
    };
    assert_eq!(vote(50, 1), Ok(Answer::Voted(Vote::Commit, Some(0))));
    assert!(matches!(vote(60, 2), Ok(Answer::Voted(Vote::Abort(_), Some(_)))));
    assert!(matches!(vote(45, 3), Ok(Answer::Voted(Vote::Abort(_), Some(_)))));
}
