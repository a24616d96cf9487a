//! A busy junction, as a panel sees it: passages come until the table is full, each voted on and most decided, while panels poll all the time.

use crate::boxes::{Lent, Timed, Undo};
use crate::calls::{body, held, listed, prepared, reading, said, send, FIRST, SETTINGS, STEP};
use crate::model::{self, Answer, Vote};
use crate::random::Random;
use std::hint::black_box;
use std::time::Instant;
use stobbarel::layout::table_len;

const PASSAGES: usize = 255;
/// Polls after each passage, and once the table is full.
const POLLS: usize = 4;
const POLLS_WHEN_FULL: usize = 255;

pub struct Junction {
    pub messages: Vec<Vec<u8>>,
    due: Vec<Answer>,
    left: Lent,
}

pub fn empty() -> Lent {
    Lent { table: vec![0; table_len(PASSAGES)], marks: vec![0; 512] }
}

impl Junction {
    pub fn new() -> Junction {
        let mut random = Random::new(5);
        let mut made = Junction { messages: Vec::new(), due: Vec::new(), left: empty() };
        for passage in 0..PASSAGES {
            let stamp = FIRST + STEP * passage as u64;
            let many = 1 + random.below(8) as usize;
            let tx = body(&mut random, &held(&made.left), stamp, many);
            made.send(prepared(&tx));
            match passage % 16 {
                2 | 7 | 10 | 15 => {} // its gateway is slow: undecided
                5 => made.send(listed(b"DC", &tx, 2)),
                _ => made.send(listed(b"DC", &tx, 1)),
            }
            let polls = if passage + 1 == PASSAGES { POLLS_WHEN_FULL } else { POLLS };
            for _ in 0..polls {
                made.send(reading(random.below(512) as u16, stamp));
            }
        }
        assert!(!made.due.iter().any(|answer| matches!(answer, Answer::Refused(_) | Answer::Voted(Vote::Abort(_), _))));
        made
    }

    fn send(&mut self, message: Vec<u8>) {
        self.due.push(send(&mut self.left, &message));
        self.messages.push(message);
    }

    /// Every answer, and what is left at the end, are those of the model.
    pub fn check<B: Timed>(&self, mut timed: B) {
        for (message, due) in self.messages.iter().zip(&self.due) {
            assert_eq!(said(B::answer(timed.call(&SETTINGS, message))), Some(*due));
        }
        let (entries, marks) = timed.entries();
        assert_eq!((Some(entries), marks), (model::entries_of(&self.left.table, PASSAGES), &self.left.marks[..]));
    }

    /// Nanoseconds a message, from an empty box; the best of three.
    pub fn turn<B: Timed>(&self, start: impl Fn() -> B) -> f64 {
        let once = || {
            let mut timed = start();
            let from = Instant::now();
            for message in &self.messages {
                black_box(timed.call(black_box(&SETTINGS), black_box(message)));
                timed.undo(Undo::Nothing);
            }
            from.elapsed().as_secs_f64() * 1e9 / self.messages.len() as f64
        };
        (0..3).map(|_| once()).fold(f64::MAX, f64::min)
    }
}
