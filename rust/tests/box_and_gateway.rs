//! A transaction from its PR to its decision, by way of records that are written and read back.
#![cfg(feature = "alloc")]

mod common;

use common::{alike, bytes};
use stobbarel::*;

fn tx(stamp: u64, reads: &[(u16, u64)], writes: &[(u16, u64)]) -> Transaction {
    let reads = UpTo::gather(reads.iter().map(|(key, version)| (Key(*key), Stamp(*version)))).unwrap();
    Transaction::new(Stamp(stamp), reads, UpTo::gather(writes.iter().map(|(key, value)| (Key(*key), *value))).unwrap())
}

fn votes(decision: Decision, count: u8) -> VoteList {
    VoteList::votes(decision, alike(0..count, decision))
}

fn logs(view: u16, decision: Decision, count: u8) -> VoteList {
    VoteList::logs(View(view), decision, alike(0..count, decision))
}

/// So many boxes in this view.
fn views(view: u16, count: u8) -> Views {
    UpTo::gather((0..count).map(|number| (number, View(view)))).unwrap()
}

/// So many boxes with one answer for this view.
fn election(leader: u8, view: u16, decision: Decision, count: u8) -> Election {
    Election { leader, decision, view: View(view), answers: UpTo::gather((0..count).map(|number| (number, decision, View(view)))).unwrap() }
}

#[test]
fn a_reader_waits_and_commits() {
    let group = Group::of(1).unwrap();
    let mut table = Table::new(group, 8).unwrap();
    let (writer, reader) = (tx(50, &[], &[(3, 7)]), tx(60, &[(3, 50)], &[]));
    let ask = bytes(|out| write_pr(&reader, out));
    assert_eq!(table.prepare(100, 10, &bytes(|out| write_pr(&writer, out))), Ok(Answer::Voted(Vote::Commit, Some(0))));
    assert_eq!(table.prepare(100, 10, &ask), Ok(Answer::Voted(Vote::Waiting, Some(4))));
    let logged = bytes(|out| write_lg(group, &writer, &votes(Decision::Commit, 4), out));
    assert_eq!(table.log(100, 10, &logged), Ok(Answer::Logged(Decision::Commit, View(0))));
    let decided = bytes(|out| write_dc(group, &writer, &votes(Decision::Commit, 6), out));
    assert_eq!(table.decide(100, 10, &decided), Ok(Answer::Done));
    assert_eq!(table.prepare(100, 10, &ask), Ok(Answer::Voted(Vote::Commit, Some(3))));
    assert_eq!(table.prepare(100, 10, &ask), Ok(Answer::Voted(Vote::Commit, None)), "the same vote again has no number");
    assert_eq!(table.receive(100, 10, &decided[..9]), Err(Refusal::Short));
    let read = table.read(100, 10, &bytes(|out| write_rd(Key(3), Stamp(70), out)));
    assert_eq!(read, Ok(Answer::Found { committed: Some(Version { stamp: Stamp(50), value: 7 }), undecided: None }));
    assert_eq!(table.marks()[3], 70);
    let mut again = Table::kept(group, 8, table.bytes().to_vec(), *table.marks());
    let late = bytes(|out| write_pr(&tx(65, &[], &[(3, 1)]), out));
    assert_eq!(again.receive(100, 10, &late), Ok(Answer::Voted(Vote::Abort(Reason::ReadMark), Some(4))));
}

/// A table of three entries, 50 voted commit, 60 waiting for it, 55 voted abort since 60 read below it; and their PRs.
fn three_votes(group: Group) -> (Table, [Vec<u8>; 3]) {
    let mut table = Table::new(group, 3).unwrap();
    let asked = [tx(50, &[], &[(3, 7)]), tx(60, &[(3, 50)], &[]), tx(55, &[], &[(3, 8)])].map(|tx| bytes(|out| write_pr(&tx, out)));
    let votes = [(Vote::Commit, 0), (Vote::Waiting, 4), (Vote::Abort(Reason::Undercuts), 4)];
    for (message, (vote, visited)) in asked.iter().zip(votes) {
        assert_eq!(table.prepare(100, 10, message), Ok(Answer::Voted(vote, Some(visited))));
    }
    (table, asked)
}

#[test]
fn only_the_message_that_is_due() {
    let group = Group::of(1).unwrap();
    let x = tx(50, &[], &[(3, 7)]);
    let messages = [
        (Mark::Pr, bytes(|out| write_pr(&x, out)), Ok(Answer::Voted(Vote::Commit, Some(0)))),
        (Mark::Lg, bytes(|out| write_lg(group, &x, &votes(Decision::Commit, 4), out)), Ok(Answer::Logged(Decision::Commit, View(0)))),
        (Mark::Iv, bytes(|out| write_iv(group, &x, &views(0, 4), out)), Ok(Answer::Elected { decision: Decision::Commit, view: View(1), leader: 3 })),
        (Mark::Ld, bytes(|out| write_ld(group, &x, &election(3, 1, Decision::Abort, 5), out)), Ok(Answer::Logged(Decision::Abort, View(1)))),
        (Mark::Dc, bytes(|out| write_dc(group, &x, &votes(Decision::Commit, 6), out)), Ok(Answer::Done)),
        (
            Mark::Rd,
            bytes(|out| write_rd(Key(3), Stamp(60), out)),
            Ok(Answer::Found { committed: Some(Version { stamp: Stamp(50), value: 7 }), undecided: None }),
        ),
    ];
    let mut table = Table::new(group, 8).unwrap();
    for (mark, message, answer) in &messages {
        let before = table.clone();
        for (other, ..) in messages.iter().filter(|(other, ..)| other != mark) {
            assert_eq!(table.due(*other, 100, 10, message), Err(Refusal::Mark));
        }
        assert_eq!(table, before);
        assert_eq!(table.due(*mark, 100, 10, message), *answer);
    }
}

#[test]
fn a_table_is_laid_out_as_the_header_says() {
    use layout::*;
    let group = Group::of(1).unwrap();
    let (mut table, asked) = three_votes(group);
    assert_eq!((table.bytes().len(), table.bytes()[0]), (table_len(3), 3));
    let logged = bytes(|out| write_lg(group, &tx(50, &[], &[(3, 7)]), &votes(Decision::Commit, 4), out));
    assert_eq!(table.log(100, 10, &logged), Ok(Answer::Logged(Decision::Commit, View(0))));
    let aborted = bytes(|out| write_dc(group, &tx(55, &[], &[(3, 8)]), &votes(Decision::Abort, 4), out));
    assert_eq!(table.decide(100, 10, &aborted), Ok(Answer::Done));
    let led = bytes(|out| write_ld(group, &tx(60, &[(3, 50)], &[]), &election(0, 0x0306, Decision::Abort, 5), out));
    assert_eq!(table.lead(100, 10, &led), Ok(Answer::Logged(Decision::Abort, View(0x0306))));
    let asked_to_move = bytes(|out| write_iv(group, &tx(50, &[], &[(3, 7)]), &views(0x0203, 2), out));
    assert_eq!(table.invoke(100, 10, &asked_to_move), Ok(Answer::Elected { decision: Decision::Commit, view: View(0x0203), leader: 1 }));
    let codes = [[1, 0, 1, 0], [3, 0, 2, 0], [2, 4, 0, 2]];
    let viewed = [[0, 0, 3, 2], [6, 3, 6, 3], [0, 0, 0, 0]];
    for (((row, codes), viewed), message) in table.bytes()[HEAD..].chunks(ROW).zip(codes).zip(viewed).zip(asked) {
        assert_eq!([row[VOTE_AT], row[REASON_AT], row[LOG_AT], row[DECIDED_AT]], codes);
        assert_eq!([row[LOG_VIEW_AT], row[LOG_VIEW_AT + 1], row[VIEW_AT], row[VIEW_AT + 1]], viewed);
        assert_eq!(&row[BODY_AT..BODY_AT + message.len() - 2], &message[2..]);
    }
    let mut full = Table::kept(group, 2, table.bytes().to_vec(), *table.marks());
    assert_eq!(full.receive(100, 10, &[]), Err(Refusal::Table));
    let mut short = Table::kept(group, 4, table.bytes().to_vec(), *table.marks());
    assert_eq!(short.receive(100, 10, &[]), Err(Refusal::Table));
}

#[test]
fn a_box_that_missed_the_prepare_logs() {
    use layout::*;
    let group = Group::of(1).unwrap();
    let mut table = Table::new(group, 1).unwrap();
    let (x, y) = (tx(50, &[], &[(3, 7)]), tx(60, &[(3, 50)], &[]));
    let logging = |of, decision, count| bytes(|out| write_lg(group, of, &votes(decision, count), out));
    let ask = bytes(|out| write_pr(&x, out));
    assert_eq!(table.log(100, 10, &logging(&x, Decision::Commit, 3)), Err(Refusal::TooFew(1)));
    assert_eq!(table.log(100, 10, &logging(&x, Decision::Commit, 4)), Ok(Answer::Logged(Decision::Commit, View(0))));
    let codes = |table: &Table| [VOTE_AT, REASON_AT, LOG_AT, DECIDED_AT].map(|at| table.bytes()[HEAD + at]);
    assert_eq!(codes(&table), [0, 0, 1, 0]);
    assert_eq!(table.log(100, 10, &logging(&y, Decision::Abort, 1)), Err(Refusal::TooFew(1)));
    assert_eq!(table.log(100, 10, &logging(&y, Decision::Abort, 2)), Err(Refusal::Full));
    // the table is full, and the PR for what is logged needs no room
    assert_eq!(table.prepare(100, 10, &ask), Ok(Answer::Voted(Vote::Commit, Some(2))));
    assert_eq!(codes(&table), [1, 0, 1, 0]);
    assert_eq!(table.log(100, 10, &logging(&x, Decision::Abort, 2)), Ok(Answer::Logged(Decision::Commit, View(0))));
}

#[test]
fn a_box_lacks_what_the_sheet_lacks() {
    let group = Group::of(2).unwrap();
    let x = tx(50, &[], &[(3, 7)]);
    let mut sheet = Sheet::votes(group);
    for number in group.numbers() {
        let answer = if number % 3 == 2 { Decision::Abort } else { Decision::Commit };
        let reply = sheet.take(number, answer).unwrap();
        assert_eq!((sheet.take(number, answer).unwrap(), Reply::Repeat.list_lacks(answer), Reply::Repeat.proof_reached(answer)), (Reply::Repeat, None, false));
        for decision in [Decision::Commit, Decision::Abort] {
            let list = sheet.list(decision);
            let told = |lacking: Option<u8>, taken| match lacking {
                Some(0) => taken,
                lacking => Err(Refusal::TooFew(lacking.expect("a sheet of votes tells"))),
            };
            let mut table = Table::new(group, 1).unwrap();
            let decided = table.decide(100, 10, &bytes(|out| write_dc(group, &x, &list, out)));
            assert_eq!(decided, told(reply.proof_lacks(decision), Ok(Answer::Done)));
            let mut table = Table::new(group, 1).unwrap();
            let logged = table.log(100, 10, &bytes(|out| write_lg(group, &x, &list, out)));
            assert_eq!(logged, told(reply.list_lacks(decision), Ok(Answer::Logged(decision, View(0)))));
            assert_eq!(reply.list_reached(decision), logged == Ok(Answer::Logged(decision, View(0))));
        }
    }
}

#[test]
fn refusals_have_the_papers_numbers() {
    use Refusal::*;
    let all = [Short, Mark, Count, Trailing, Range, Order, Misbehaviour, Code, OtherBody, Unknown, TooFew(3), Contradiction, Full, Group, Ahead, Table, Buffer];
    assert_eq!(all.map(Refusal::number), [1, 2, 3, 4, 5, 6, 7, 8, 9, 10, 11, 12, 13, 14, 15, 16, 17]);
    assert_eq!([Old, Undecided].map(Refusal::number), [18, 19]);
    assert_eq!([Passed, NotLogged, Election, LastView].map(Refusal::number), [21, 22, 23, 24]);
    assert_eq!([Passage, Versions, Direction, AxleCount, HotAxle].map(Refusal::number), [26, 27, 28, 29, 30]);
    assert_eq!(all.iter().filter_map(|one| one.lacking()).collect::<Vec<u8>>(), [3]);
    assert_eq!(TooFew(3).to_string(), "refused 11, too few: the list misses its threshold, it lacks 3");
}

#[test]
fn a_vote_goes_to_the_tally_as_it_stands() {
    use layout::*;
    let group = Group::of(1).unwrap();
    let (table, _) = three_votes(group);
    let [commit, waiting, abort] = [0, 1, 2].map(|place| table.bytes()[HEAD + ROW * place + VOTE_AT]);
    assert_eq!([commit, abort, waiting], [Vote::Commit, Vote::Abort(Reason::Undercuts), Vote::Waiting].map(Vote::number));
    let mut sheet = Sheet::votes(group);
    assert!(matches!(sheet.take_vote(0, Vote::Commit), Ok(Reply::Votes { .. })));
    assert!(matches!(sheet.take_vote(1, Vote::Abort(Reason::Undercuts)), Ok(Reply::Votes { .. })));
    let before = sheet;
    assert_eq!(sheet.take_vote(2, Vote::Waiting), Err(Refusal::Code));
    assert_eq!(sheet, before);
    assert_eq!((sheet.boxes(Decision::Commit), sheet.boxes(Decision::Abort)), ([0].into(), [1].into()));
    assert_eq!(
        (Vote::Commit.decision(), Vote::Abort(Reason::Ahead).decision(), Vote::Waiting.decision()),
        (Some(Decision::Commit), Some(Decision::Abort), None)
    );
}

#[test]
fn what_is_written_is_read() {
    let group = Group::of(5).unwrap();
    let all: Vec<(u16, u64)> = (0..8).map(|i| (73 * i, u64::from(i))).collect();
    let x = tx(u64::MAX, &all, &all);
    let list = logs(65535, Decision::Abort, 26);
    let message = bytes(|out| write_dc(group, &x, &list, out));
    assert_eq!(message.len(), 233);
    assert_eq!(read_message(group, &message), Ok(Message::Decide(x.clone(), list.clone())));
    let (part, listed) = (bytes(|out| write_tx(&x, out)), bytes(|out| write_vl(group, &list, out)));
    assert_eq!(tx_part(group, &message), Some(&part[..]));
    assert_eq!((check_tx(&part), check_vl(group, &listed)), (Ok(()), Ok(())));
    assert_eq!((check_tx(&listed), check_vl(group, &part)), (Err(Refusal::Mark), Err(Refusal::Mark)));
    let rd = bytes(|out| write_rd(Key(511), Stamp(1), out));
    assert_eq!(read_message(group, &rd), Ok(Message::Read(Key(511), Stamp(1))));
    assert_eq!(read_message(group, &[]), Err(Refusal::Short));
    assert_eq!(tx_part(group, &rd), None);
}

#[test]
fn views_and_elections_are_written_and_read() {
    let group = Group::of(5).unwrap();
    let all: Vec<(u16, u64)> = (0..8).map(|i| (73 * i, u64::from(i))).collect();
    let x = tx(u64::MAX, &all, &all);
    let told = Views::gather((0..26).map(|number| (number, View(65535 - 300 * u16::from(number))))).unwrap();
    let answers = UpTo::gather(told.iter().map(|(number, view)| (*number, if number % 3 == 0 { Decision::Commit } else { Decision::Abort }, *view))).unwrap();
    let election = Election { leader: 25, decision: Decision::Abort, view: View(0x0102), answers };
    let (iv, ld) = (bytes(|out| write_iv(group, &x, &told, out)), bytes(|out| write_ld(group, &x, &election, out)));
    assert_eq!((iv.len(), ld.len()), (255, LONGEST));
    assert_eq!(read_message(group, &iv), Ok(Message::Invoke(x.clone(), told)));
    assert_eq!(read_message(group, &ld), Ok(Message::Lead(x.clone(), election.clone())));
    let (part, vs, el) = (bytes(|out| write_tx(&x, out)), bytes(|out| write_vs(group, &told, out)), bytes(|out| write_el(group, &election, out)));
    assert_eq!((iv, ld), ([b"IV", &part[..], &vs].concat(), [b"LD", &part[..], &el].concat()));
    assert_eq!((check_vs(group, &vs), check_el(group, &el)), (Ok(()), Ok(())));
    assert_eq!((check_vs(group, &el), check_el(group, &vs)), (Err(Refusal::Mark), Err(Refusal::Mark)));
    for end in 0..vs.len() {
        assert_eq!(check_vs(group, &vs[..end]), Err(Refusal::Short));
    }
    for end in 0..el.len() {
        assert_eq!(check_el(group, &el[..end]), Err(Refusal::Short));
    }
}

#[test]
fn logs_carry_their_view() {
    let group = Group::of(1).unwrap();
    let x = tx(50, &[], &[(3, 7)]);
    for view in [0, 1, 255, 256, 65535] {
        let list = logs(view, Decision::Abort, 2);
        let [low, high] = view.to_le_bytes();
        let listed = bytes(|out| write_vl(group, &list, out));
        assert_eq!(listed, [b'V', b'L', 2, 2, 2, low, high, 0, 2, 1, 2]);
        let message = bytes(|out| write_dc(group, &x, &list, out));
        assert_eq!(read_message(group, &message), Ok(Message::Decide(x.clone(), list)));
        for end in 0..listed.len() {
            assert_eq!(check_vl(group, &listed[..end]), Err(Refusal::Short));
        }
        // without its view, as lists of logs were before
        assert_eq!(check_vl(group, &[&listed[..5], &listed[7..]].concat()), Err(Refusal::Short));
    }
    assert_eq!(check_vl(group, &[b'V', b'L', 1, 2, 1, 0, 0, 0, 2]), Err(Refusal::Trailing));
    assert_eq!(check_vl(group, &[b'V', b'L', 3, 2, 1, 0, 2]), Err(Refusal::Code));
}

#[test]
fn votes_have_no_view() {
    let group = Group::of(1).unwrap();
    let x = tx(50, &[], &[(3, 7)]);
    let (plain, mut lent) = (votes(Decision::Commit, 4), votes(Decision::Commit, 4));
    lent.view = View(300);
    assert_eq!(bytes(|out| write_vl(group, &lent, out)), bytes(|out| write_vl(group, &plain, out)));
    let message = bytes(|out| write_lg(group, &x, &lent, out));
    assert_eq!(read_message(group, &message), Ok(Message::Log(x, plain)));
}

#[test]
fn a_sheet_of_logs_is_for_one_view() {
    let group = Group::of(1).unwrap();
    let x = tx(50, &[], &[(3, 7)]);
    assert_eq!((Sheet::votes(group).view(), Sheet::logs(group, View(0)).view()), (None, Some(View(0))));
    for view in [0, 7, 65535] {
        let mut sheet = Sheet::logs(group, View(view));
        assert_eq!(write_dc(group, &x, &sheet.list(Decision::Commit), &mut [0; LONGEST]), Err(Refusal::Count));
        for number in [5, 3, 1, 0, 4] {
            sheet.take(number, Decision::Commit).unwrap();
        }
        assert_eq!(sheet.take(2, Decision::Abort), Ok(Reply::Logs { commit_proof: 0, abort_proof: 4 }));
        let mut answers = [Decision::Commit; 6];
        answers[2] = Decision::Abort;
        assert_eq!(sheet.list(Decision::Commit), VoteList::logs(View(view), Decision::Commit, UpTo::gather((0..).zip(answers)).unwrap()));
        // a box takes the proof, whatever view it is of
        let proof = bytes(|out| write_dc(group, &x, &sheet.list(Decision::Commit), out));
        assert_eq!(Table::new(group, 1).unwrap().decide(100, 10, &proof), Ok(Answer::Done));
        let against = bytes(|out| write_dc(group, &x, &sheet.list(Decision::Abort), out));
        assert_eq!(Table::new(group, 1).unwrap().decide(100, 10, &against), Err(Refusal::TooFew(4)));
    }
}

#[test]
fn refusals_leave_the_buffer() {
    let mut out = [9; 40];
    assert_eq!(write_tx(&tx(1, &[], &[]), &mut out), Err(Refusal::Count));
    let nine = [0, 1, 2, 3, 4, 5, 6, 7, 8].map(|key| (Key(key), Stamp(0)));
    assert_eq!(UpTo::<(Key, Stamp), 8>::try_from(&nine[..]), Err(Refusal::Count), "nine are refused before");
    assert_eq!(write_tx(&tx(1, &[(512, 0)], &[]), &mut out), Err(Refusal::Range));
    assert_eq!(write_pr(&tx(1, &[(2, 0), (1, 0)], &[]), &mut out), Err(Refusal::Order));
    assert_eq!(write_pr(&tx(5, &[(2, 5)], &[]), &mut out), Err(Refusal::Misbehaviour));
    assert_eq!(write_pr(&tx(5, &[(2, 4)], &[(1, 1), (2, 1)]), &mut out), Err(Refusal::Buffer));
    let group = Group::of(1).unwrap();
    let mut list = votes(Decision::Commit, 7);
    assert_eq!(write_vl(group, &list, &mut out), Err(Refusal::Range));
    list.pairs.truncate(1);
    list.kind = Kind::Logs;
    list.view = View(1);
    assert_eq!(write_lg(group, &tx(5, &[], &[(1, 1)]), &list, &mut out), Err(Refusal::Code));
    list.pairs = UpTo::new();
    assert_eq!(write_vl(group, &list, &mut out), Err(Refusal::Count));
    let views: Vec<(u8, View)> = (0..27).map(|number| (number, View(0))).collect();
    assert_eq!(write_vs(group, &views, &mut out), Err(Refusal::Count));
    assert_eq!(out, [9; 40]);
}

#[test]
fn groups_and_sheets() {
    let row = |f| Group::of(f).map(|g| [g.boxes(), g.commit_list(), g.abort_list(), g.commit_proof(), g.abort_proof(), g.log_proof()]);
    assert_eq!(row(1), Ok([6, 4, 2, 6, 4, 5]));
    assert_eq!(row(5), Ok([26, 16, 6, 26, 16, 21]));
    assert_eq!((row(0), row(6)), (Err(Refusal::Group), Err(Refusal::Group)));
    let group = Group::of(1).unwrap();
    assert_eq!((Table::new(group, 0), Table::new(group, 256)), (Err(Refusal::Group), Err(Refusal::Group)));
    let mut sheet = Sheet::logs(group, View(0));
    for number in 0..4 {
        assert_eq!(sheet.take(number, Decision::Abort), Ok(Reply::Logs { commit_proof: 5, abort_proof: 4 - number }));
    }
    assert_eq!(sheet.take(2, Decision::Commit), Ok(Reply::Repeat));
    assert_eq!(sheet.take(6, Decision::Commit), Err(Refusal::Range));
    assert_eq!(sheet.take(5, Decision::Abort), Ok(Reply::Logs { commit_proof: 5, abort_proof: 0 }));
    assert_eq!((sheet.boxes(Decision::Abort), sheet.boxes(Decision::Commit)), ([0, 1, 2, 3, 5].into(), [].into()));
}
