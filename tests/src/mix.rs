//! Runs of messages that a seed determines: few keys, stamps near each other, versions read from what is held,
//! lists on both sides of each threshold, views on both sides of each rule, capacities that change from call to call, and every kind of damage.

use crate::model::{entries_of, fold_of, low_of, row_at, transaction_bytes, Decision, Entry, Settings, Transaction, Vote, PAPER, THRESHOLDS};
use crate::random::Random;
use stobbarel::layout::{table_len, BODY_AT, DECIDED_AT, FOLD, FOLDS_AT, HEAD, LOG_AT, LOG_VIEW_AT, LOW_AT, REASON_AT, ROW, VIEW_AT, VOTE_AT};

/// Where in a row the counts of its body, the stamp, and the first two keys stand.
const COUNTS: [usize; 2] = [BODY_AT + 2, BODY_AT + 3];
const STAMP: usize = BODY_AT + 4;
const KEY: usize = BODY_AT + 12;
const NEXT_KEY: usize = BODY_AT + 22;

pub struct Run {
    pub settings: Settings,
    pub table: Vec<u8>,
    pub marks: Vec<u64>,
    keys: Vec<u16>,
    base: u64,
    spread: u64,
    /// Bodies that were sent before.
    bodies: Vec<Transaction>,
    /// How many messages in a hundred are damaged.
    damage: u64,
    /// How many calls in a hundred lend a damaged table.
    lent: u64,
    /// How many calls in a hundred come with another capacity.
    shifts: u64,
    /// How many calls in a hundred raise the low mark.
    raises: u64,
    pub left: u64,
}

impl Run {
    pub fn new(random: &mut Random) -> Run {
        let spread = random.between(3, 40);
        let base = lowest_stamp(random, spread);
        let capacity = capacity(random);
        let table = empty_table(random, capacity);
        let keys = keys(random);
        let marked = random.chance(15);
        let marks = (0..512).map(|_| if marked { base.saturating_add(random.below(spread)) } else { 0 }).collect();
        let settings = Settings { f: random.between(1, 5), capacity, clock: 0, delta: 0 };
        let left = random.between(4, 12 + 4 * capacity.min(40));
        let damage = random.one_of(&[0, 5, 15, 60]);
        let lent = random.one_of(&[0, 0, 0, 4, 30]);
        let shifts = random.one_of(&[0, 0, 0, 10, 50]);
        let raises = random.one_of(&[0, 0, 5, 10, 25]);
        let mut run = Run { settings, table, marks, keys, base, spread, bodies: Vec::new(), damage, lent, shifts, raises, left };
        if random.chance(12) {
            (0..random.between(1, 4)).for_each(|_| run.disturb_head(random));
        }
        run.settings.delta = delta(random, spread);
        run.turn_clock(random);
        run
    }

    fn turn_clock(&mut self, random: &mut Random) {
        self.settings.clock = match random.below(10) {
            0 => u64::MAX - random.below(3),
            1 => 0,
            2 | 3 => self.stamp(random),
            4 => self.stamp(random).saturating_sub(self.settings.delta),
            _ => self.base.saturating_add(self.spread),
        };
    }

    /// Mostly one that is not old.
    fn stamp(&self, random: &mut Random) -> u64 {
        let low = low_of(&self.table);
        let base = if low >= self.base && random.chance(85) { low.saturating_add(1) } else { self.base };
        base.saturating_add(random.below(self.spread + 1))
    }

    /// Some of the keys, rising, at most eight.
    fn some_keys(&self, random: &mut Random, most: u64) -> Vec<u16> {
        let wanted = random.below(most + 1) as usize;
        let mut chosen = self.keys.clone();
        while chosen.len() > wanted {
            chosen.remove(random.below(chosen.len() as u64) as usize);
        }
        chosen.truncate(8);
        chosen
    }

    /// How many entries the slice has room for, whatever the capacity.
    fn room(&self) -> u64 {
        ((self.table.len() - HEAD) / ROW).min(255) as u64
    }

    fn held(&self) -> Vec<Entry> {
        entries_of(&self.table, self.room() as usize).unwrap_or_default()
    }

    fn body(&self, random: &mut Random, stamp: u64) -> Transaction {
        let held = self.held();
        let most = if random.chance(15) { 8 } else { 3 };
        let mut reads = Vec::new();
        for key in self.some_keys(random, most) {
            let writers: Vec<u64> = held
                .iter()
                .filter(|entry| entry.body.stamp < stamp && entry.body.writes.iter().any(|(written, _)| *written == key))
                .map(|entry| entry.body.stamp)
                .collect();
            let newest = held.iter().filter(|entry| entry.live() && writers.contains(&entry.body.stamp)).map(|entry| entry.body.stamp).max();
            let folded = fold_of(&self.table, key).0;
            let version = match random.below(20) {
                0..=11 => newest.unwrap_or(folded),
                16 | 17 => folded,
                18 => self.old_version(random),
                12 | 13 if !writers.is_empty() => random.one_of(&writers),
                14 => self.stamp(random),
                15 if !held.is_empty() => held[random.below(held.len() as u64) as usize].body.stamp,
                _ => 0,
            };
            reads.push((key, if random.chance(98) { version.min(stamp.saturating_sub(1)) } else { version }));
        }
        let mut writes: Vec<(u16, u64)> = self.some_keys(random, most).into_iter().map(|key| (key, random.next() >> random.below(64))).collect();
        if reads.is_empty() && writes.is_empty() {
            writes.push((random.one_of(&self.keys), random.below(3)));
        }
        Transaction { mark: *b"TX", stamp, reads, writes }
    }

    /// At or below the low mark: what is folded at any of the keys, or beside it.
    fn old_version(&self, random: &mut Random) -> u64 {
        let low = low_of(&self.table);
        match random.below(4) {
            0 | 1 => fold_of(&self.table, random.one_of(&self.keys)).0,
            2 => low.saturating_sub(random.below(3)),
            _ => random.below(low.saturating_add(1).max(1)),
        }
    }

    /// A low mark to be raised to, now and then: where the present one is or below it, beside a stamp that is held, up to the first that is undecided, or above all.
    pub fn next_low(&mut self, random: &mut Random) -> Option<u64> {
        if !random.chance(self.raises) {
            return None;
        }
        let (low, held) = (low_of(&self.table), self.held());
        let first_open = held.iter().filter(|entry| entry.decision.is_none()).map(|entry| entry.body.stamp).min();
        let stamps: Vec<u64> = held.iter().map(|entry| entry.body.stamp).collect();
        let highest = stamps.iter().copied().max().unwrap_or(low);
        let gone = self.waited_in_vain(&held);
        let chosen = match random.below(20) {
            0 => low,
            1 => low.saturating_sub(random.between(1, 3)),
            2 => random.below(low.saturating_add(1).max(1)),
            3 => low.saturating_add(1),
            4..=7 if !stamps.is_empty() => random.one_of(&stamps).saturating_sub(random.below(2)),
            8 | 9 => highest.saturating_add(random.below(2)),
            10 => self.stamp(random),
            // above all, and behind it there is nothing left to do
            11 if random.chance(30) => random.one_of(&[u64::MAX, highest.saturating_mul(3), highest.saturating_add(1 << 40)]),
            12..=14 if gone.is_some() => gone.unwrap_or(low),
            _ => first_open.map_or(highest, |open| open.saturating_sub(1)),
        };
        // most that are not above are a message instead
        (chosen > low || random.chance(20)).then_some(chosen)
    }

    /// A version that an entry waits for and that is decided abort: once it has left, the wait is in vain all the same.
    fn waited_in_vain(&self, held: &[Entry]) -> Option<u64> {
        let mut waiting = held.iter().filter(|entry| entry.decision.is_none() && entry.vote == Vote::Waiting);
        waiting.find_map(|entry| {
            let versions: Vec<u64> = entry.body.reads.iter().map(|read| read.1).collect();
            held.iter().find(|other| other.decision == Some(Decision::Abort) && versions.contains(&other.body.stamp)).map(|other| other.body.stamp)
        })
    }

    fn known_or_new(&mut self, random: &mut Random, known: u64) -> Transaction {
        if !self.bodies.is_empty() && random.chance(known) {
            let at = self.bodies.len() as u64 - 1 - random.below(self.bodies.len() as u64).min(random.below(12));
            let body = self.bodies[at as usize].clone();
            if !random.chance(15) {
                return body;
            }
            let other = self.body(random, body.stamp);
            self.bodies.push(other.clone());
            return other;
        }
        let mut stamp = self.stamp(random);
        let held = self.held();
        for _ in 0..random.below(8) {
            if held.iter().any(|entry| entry.body.stamp == stamp) {
                stamp = self.stamp(random);
            }
        }
        let body = self.body(random, stamp);
        self.bodies.push(body.clone());
        body
    }

    /// A message about an entry that waits, or about one that it waits for.
    fn about_a_wait(&mut self, random: &mut Random) -> Option<Vec<u8>> {
        let held = self.held();
        let waiting: Vec<&Entry> = held.iter().filter(|entry| entry.decision.is_none() && entry.vote == Vote::Waiting).collect();
        if waiting.is_empty() {
            return None;
        }
        let reader = &waiting[random.below(waiting.len() as u64) as usize].body;
        if random.chance(40) {
            return Some([b"PR".to_vec(), transaction_bytes(reader)].concat());
        }
        let versions: Vec<u64> = reader.reads.iter().map(|read| read.1).filter(|version| *version != 0).collect();
        if versions.is_empty() {
            return None;
        }
        let version = random.one_of(&versions);
        let written = held.iter().find(|entry| entry.body.stamp == version)?;
        let mut body = written.body.clone();
        if random.chance(25) {
            return Some([b"PR".to_vec(), transaction_bytes(&body)].concat());
        }
        if random.chance(25) {
            body = self.body(random, body.stamp);
        }
        Some([b"DC".to_vec(), transaction_bytes(&body), self.list(random, false)].concat())
    }

    /// A message about an entry that an LG stored and no PR has come for: its PR, an LG or a DC for it, or the PR of a body that reads it.
    fn about_only_logged(&mut self, random: &mut Random) -> Option<Vec<u8>> {
        let held = self.held();
        let logged: Vec<&Entry> = held.iter().filter(|entry| entry.only_logged()).collect();
        if logged.is_empty() {
            return None;
        }
        let body = &logged[random.below(logged.len() as u64) as usize].body;
        let bytes = transaction_bytes(body);
        Some(match random.below(10) {
            0..=3 => [b"PR".to_vec(), bytes].concat(),
            4 => [b"LG".to_vec(), bytes, self.list(random, true)].concat(),
            5 => [b"DC".to_vec(), bytes, self.list(random, false)].concat(),
            _ => {
                let reader = self.reader(random, body)?;
                let bytes = transaction_bytes(&reader);
                self.bodies.push(reader);
                [b"PR".to_vec(), bytes].concat()
            }
        })
    }

    /// A body with a higher stamp that reads a key from this one.
    fn reader(&self, random: &mut Random, written: &Transaction) -> Option<Transaction> {
        let stamp = written.stamp.checked_add(random.between(1, 4))?;
        let (key, _) = *written.writes.first()?;
        let mut reader = self.body(random, stamp);
        reader.reads.retain(|(read, _)| *read != key);
        reader.reads.truncate(7);
        reader.reads.push((key, written.stamp));
        reader.reads.sort_unstable();
        Some(reader)
    }

    /// A list that meets its threshold, misses it by one or by more, or has no answer that counts.
    fn list(&self, random: &mut Random, log: bool) -> Vec<u8> {
        let f = self.f();
        let boxes = 5 * f + 1;
        let kind = if log || random.chance(60) { 1 } else { 2 };
        let decision = random.one_of(&[Decision::Commit, Decision::Commit, Decision::Abort]);
        let needed = threshold(f, log, kind, decision);
        let counted = match random.below(10) {
            0 | 1 => needed - 1,
            2 => (needed + 1).min(boxes),
            3 => random.between(0, boxes),
            4 if random.chance(40) => 0,
            _ => needed,
        };
        let decided = if decision == Decision::Commit { 1 } else { 2 };
        let pairs = pairs(random, boxes, counted, decided);
        let mut bytes = vec![b'V', b'L', kind, decided, pairs.len() as u8];
        if kind == 2 {
            bytes.extend(view(random).to_le_bytes());
        }
        for (number, answer) in pairs {
            bytes.extend([number, answer]);
        }
        bytes
    }

    /// f as lists have it: in order, be the settings not.
    fn f(&self) -> u64 {
        if (1..=5).contains(&self.settings.f) {
            self.settings.f
        } else {
            1
        }
    }

    /// A VS for a box in this view: about f + 1, or about 3f + 1, are at or above one beside it, the others below.
    fn views(&self, random: &mut Random, current: u16) -> Vec<u8> {
        let f = self.f();
        let boxes = 5 * f + 1;
        let high = beside(random, current);
        let above = match random.below(12) {
            choice @ 0..=2 => f + choice,
            3..=5 => 3 * f + 1,
            6 => 3 * f,
            7 => 3 * f + 2,
            8 => boxes,
            _ => random.below(boxes + 1),
        }
        .min(boxes);
        let mut numbers: Vec<u8> = (0..boxes as u8).collect();
        let mut told: Vec<(u8, u16)> = Vec::new();
        for place in 0..boxes {
            let number = numbers.remove(random.below(numbers.len() as u64) as usize);
            let view = if place < above { high.saturating_add(random.one_of(&[0, 0, 0, 1, 2, 300])) } else { random.below(u64::from(high).max(1)) as u16 };
            // those below may be left out
            if place < above || told.is_empty() || random.chance(60) {
                told.push((number, view));
            }
        }
        told.sort_unstable();
        let mut bytes = vec![b'V', b'S', told.len() as u8];
        for (number, view) in told {
            bytes.push(number);
            bytes.extend(view.to_le_bytes());
        }
        bytes
    }

    /// An EL for an entry of this stamp, in this view and logged in that: mostly one that a box takes; else with another leader, one answer too few or too many, one of
    /// another view, or a decision that is not the majority's.
    fn election(&self, random: &mut Random, stamp: u64, current: u16, logged: u16) -> Vec<u8> {
        let (f, decided) = (self.f(), random.between(1, 2) as u8);
        let boxes = 5 * f + 1;
        let view = match random.below(8) {
            0 => beside(random, current),
            1 => beside(random, logged),
            2 => logged,
            3 | 4 => current,
            _ => current.max(logged).saturating_add(1),
        };
        let leads = PAPER.leader(&Settings { f, ..self.settings }, view, stamp);
        let leader = if random.chance(92) { leads } else { random.below(boxes) as u8 };
        let answers = answers(random, f, decided, view);
        let mut bytes = [&[b'E', b'L', leader, decided][..], &view.to_le_bytes(), &[answers.len() as u8]].concat();
        for (number, answer, view) in answers {
            bytes.extend([number, answer]);
            bytes.extend(view.to_le_bytes());
        }
        bytes
    }

    /// An IV or an LD of this body, in the view that it is held in.
    fn fallback(&self, random: &mut Random, body: &Transaction) -> Vec<u8> {
        let held = self.held().into_iter().find(|entry| entry.body.stamp == body.stamp);
        let (current, logged) = held.map_or((0, 0), |entry| (entry.view, entry.log.map_or(0, |log| log.1)));
        let bytes = transaction_bytes(body);
        if random.chance(45) {
            return [b"IV".to_vec(), bytes, self.views(random, current)].concat();
        }
        [b"LD".to_vec(), bytes, self.election(random, body.stamp, current, logged)].concat()
    }

    /// An IV or an LD of an entry that is undecided, mostly of one that is logged; where it is not, an LG too.
    fn about_a_log(&self, random: &mut Random) -> Option<Vec<u8>> {
        let unlogged = random.chance(20);
        let held: Vec<Entry> = self.held().into_iter().filter(|entry| entry.decision.is_none() && entry.log.is_none() == unlogged).collect();
        if held.is_empty() {
            return None;
        }
        let body = &held[random.below(held.len() as u64) as usize].body;
        if unlogged && random.chance(40) {
            return Some([b"LG".to_vec(), transaction_bytes(body), self.list(random, true)].concat());
        }
        Some(self.fallback(random, body))
    }

    /// A message with a body as the table holds it.
    fn about_a_row(&mut self, random: &mut Random) -> Option<Vec<u8>> {
        let held = self.held();
        if held.is_empty() {
            return None;
        }
        let unvoted: Vec<&Entry> = held.iter().filter(|entry| entry.decision.is_none() && entry.vote == Vote::None).collect();
        if !unvoted.is_empty() && random.chance(60) {
            let body = transaction_bytes(&unvoted[random.below(unvoted.len() as u64) as usize].body);
            return Some([b"PR".to_vec(), body].concat());
        }
        let body = &held[random.below(held.len() as u64) as usize].body;
        let bytes = transaction_bytes(body);
        Some(match random.below(4) {
            0 => [b"PR".to_vec(), bytes].concat(),
            1 => [b"LG".to_vec(), bytes, self.list(random, true)].concat(),
            2 => [b"DC".to_vec(), bytes, self.list(random, false)].concat(),
            _ => self.fallback(random, body),
        })
    }

    /// A message in order.
    fn sound_message(&mut self, random: &mut Random) -> Vec<u8> {
        if random.chance(20) {
            if let Some(message) = self.about_a_wait(random) {
                return message;
            }
        }
        if random.chance(15) {
            if let Some(message) = self.about_only_logged(random) {
                return message;
            }
        }
        if random.chance(20) {
            if let Some(message) = self.about_a_log(random) {
                return message;
            }
        }
        if random.chance(6 + self.lent) {
            if let Some(message) = self.about_a_row(random) {
                return message;
            }
        }
        self.any_message(random)
    }

    /// Of a body that was sent before, or of a new one.
    fn any_message(&mut self, random: &mut Random) -> Vec<u8> {
        match random.below(22) {
            0..=8 => {
                let body = self.known_or_new(random, 40);
                [b"PR".to_vec(), transaction_bytes(&body)].concat()
            }
            9..=12 => {
                let body = self.known_or_new(random, 80);
                [b"LG".to_vec(), transaction_bytes(&body), self.list(random, true)].concat()
            }
            13..=16 => {
                let body = self.known_or_new(random, 85);
                [b"DC".to_vec(), transaction_bytes(&body), self.list(random, false)].concat()
            }
            17..=18 => {
                // where the table is full, more that it does not hold
                let full = u64::from(self.table[0]) >= self.settings.capacity;
                let body = self.known_or_new(random, if full { 40 } else { 85 });
                self.fallback(random, &body)
            }
            _ => {
                let stamp = if random.chance(80) { self.stamp(random) } else { random.between(1, u64::MAX) >> random.below(30) };
                let key = if random.chance(90) { random.one_of(&self.keys) } else { random.below(512) as u16 };
                [b"RD".to_vec(), key.to_le_bytes().to_vec(), stamp.max(1).to_le_bytes().to_vec()].concat()
            }
        }
    }

    /// A DC, by what the table holds and what was sent before; now and then damaged.
    pub fn decision(&mut self, random: &mut Random) -> Vec<u8> {
        let held = self.held();
        let body =
            if !held.is_empty() && random.chance(30) { held[random.below(held.len() as u64) as usize].body.clone() } else { self.known_or_new(random, 50) };
        let mut message = [b"DC".to_vec(), transaction_bytes(&body), self.list(random, false)].concat();
        if random.chance(self.damage / 3) {
            self.spoil(random, &mut message);
        }
        message
    }

    /// One place of a message set wrong.
    fn spoil(&self, random: &mut Random, m: &mut Vec<u8>) {
        if m.starts_with(b"RD") {
            return spoil_read(random, m);
        }
        let parts = Parts::of(m);
        let pair = parts.some_pair(random);
        let place = parts.some_listed(random);
        match random.below(22) {
            choice @ 9..=17 if parts.told => self.spoil_told(random, m, &parts, place, choice),
            choice @ 0..=5 => spoil_contents(random, m, &parts, pair, choice),
            choice @ 6..=8 => spoil_counts(random, m, choice),
            choice @ 9..=17 => self.spoil_list(random, m, &parts, place, choice),
            choice @ 18..=20 => spoil_mark(random, m, &parts, choice),
            _ => spoil_raw(random, m),
        }
    }

    /// Kind, decision, count or view of the list, or box number or answer at `place` in it.
    fn spoil_list(&self, random: &mut Random, m: &mut Vec<u8>, parts: &Parts, place: usize, choice: u64) {
        let n = (5 * self.settings.f.clamp(1, 5) + 1) as u8;
        match choice {
            9 | 16 => spoil_kind(random, m, parts),
            17 => spoil_view(random, m, parts),
            10 => put(m, parts.list + 3, &[random.one_of(&[0, 3, 255])]),
            11 => put(m, parts.list + 4, &[random.one_of(&[0, 26, 27, 255])]),
            12 => put(m, place + 1, &[random.one_of(&[0, 3, 255])]),
            13 => put(m, place, &[random.one_of(&[n, n - 1, n.wrapping_add(1), 26, 255])]),
            _ if parts.listed > 1 => {
                let number = byte(m, parts.some_listed(random));
                put(m, place, &[number])
            }
            _ => spoil_raw(random, m),
        }
    }

    /// What stands before the count of a VS or an EL, the count, or box number, answer or view at `place`; or one more is listed, or one less.
    fn spoil_told(&self, random: &mut Random, m: &mut Vec<u8>, parts: &Parts, place: usize, choice: u64) {
        let n = (5 * self.settings.f.clamp(1, 5) + 1) as u8;
        let wide = random.one_of(&[n, n - 1, n.wrapping_add(1), 26, 255]);
        match choice {
            9 if parts.each == 4 => put(m, parts.list + 2, &[wide]),
            10 if parts.each == 4 => put(m, parts.list + 3, &[random.one_of(&[0, 1, 2, 3, 255])]),
            11 if parts.each == 4 => put(m, parts.list + 4, &view(random).to_le_bytes()),
            12 => put(m, parts.from - 1, &[random.one_of(&[0, 26, 27, 255])]),
            13 => put(m, place, &[wide]),
            14 if parts.each == 4 => put(m, place + 1, &[random.one_of(&[0, 3, 255])]),
            15 => put(m, place + parts.each - 2, &view(random).to_le_bytes()),
            16 if parts.listed > 1 && m.len() == parts.from + parts.each * parts.listed as usize => {
                m.truncate(m.len() - parts.each);
                put(m, parts.from - 1, &[parts.listed as u8 - 1]);
            }
            17 if parts.listed > 1 => {
                let number = byte(m, parts.some_listed(random));
                put(m, place, &[number])
            }
            _ => m.truncate(parts.list + random.below(12) as usize),
        }
    }

    pub fn message(&mut self, random: &mut Random) -> Vec<u8> {
        if random.chance(1) {
            let most = random.one_of(&[2, 40]);
            return (0..random.below(most)).map(|_| random.next() as u8).collect();
        }
        let mut message = self.sound_message(random);
        if random.chance(self.damage) {
            for _ in 0..random.one_of(&[1, 1, 1, 2, 3]) {
                self.spoil(random, &mut message);
            }
        }
        message
    }

    /// Beside the number of entries, beside what the slice has room for, or anywhere.
    fn other_capacity(&self, random: &mut Random) -> u64 {
        let (held, room) = (u64::from(self.table[0]), self.room());
        match random.below(8) {
            0 => held.saturating_sub(1),
            1 => held,
            2 => held + 1,
            3 => room,
            4 => room + 1,
            5 => random.between(1, 255),
            _ => random.between(1, room),
        }
    }

    /// Settings for the next call; now and then not in order.
    pub fn next_settings(&mut self, random: &mut Random) -> Settings {
        if random.chance(25) {
            self.turn_clock(random);
        }
        // a table that has outgrown its box is refused until the box has grown too
        if u64::from(self.table[0]) > self.settings.capacity && random.chance(50) {
            self.settings.capacity = self.room();
        }
        let mut settings = self.settings;
        if random.chance(self.shifts) {
            settings.capacity = self.other_capacity(random);
        }
        if random.chance(1) {
            settings.f = random.one_of(&[0, 6, 7, 255, 256 + 1, u64::MAX, (1 << 32) + 1]);
        }
        if random.chance(1) {
            settings.capacity = random.one_of(&[0, 256, 257, 1, settings.capacity + 1, settings.capacity.saturating_sub(1), 1 << 32, u64::MAX]);
        }
        if random.chance(1) {
            settings.f = random.between(1, 5);
        }
        settings
    }

    /// The table or the read marks changed behind the box's back.
    pub fn disturb(&mut self, random: &mut Random) {
        if !random.chance(self.lent) {
            return;
        }
        for _ in 0..random.between(1, 3) {
            let row = self.some_row(random);
            let other = self.some_row(random);
            match random.below(23) {
                20.. => self.disturb_head(random),
                choice @ 0..=7 => self.disturb_codes(random, row, choice),
                choice @ 8..=14 => self.disturb_body(random, row, other, choice),
                15..=17 => self.hold_twice(random, row.min(other), row.max(other)),
                _ => {
                    let key = random.one_of(&self.keys);
                    self.marks[key as usize] = self.stamp(random);
                }
            }
        }
    }

    /// The low mark at or beside a stamp; the folded version of a key at, below or above the stamps, or any bytes; now and then a few bytes anywhere in the head.
    fn disturb_head(&mut self, random: &mut Random) {
        let (stamp, key) = (self.stamp(random), usize::from(random.one_of(&self.keys)));
        let (held, waited) = (self.held(), self.waited_for().map(|row| row + STAMP).map(|at| u64_at(&self.table, at)));
        let some_held = |random: &mut Random| held.get(random.below(held.len().max(1) as u64) as usize).map_or(stamp, |entry| entry.body.stamp);
        let mut put = |at: usize, number: u64| self.table[at..at + 8].copy_from_slice(&number.to_le_bytes());
        match random.below(12) {
            0 | 1 => put(LOW_AT, stamp.saturating_sub(random.below(4))),
            2 => put(LOW_AT, waited.unwrap_or(some_held(random))),
            3 => put(LOW_AT, random.one_of(&[0, 0, 0, 1])),
            4 if random.chance(10) => put(LOW_AT, u64::MAX - random.below(2)),
            4..=6 => put(FOLDS_AT + FOLD * key, some_held(random)),
            7 | 8 => put(FOLDS_AT + FOLD * key, stamp.saturating_sub(random.below(6))),
            9 => put(FOLDS_AT + FOLD * key, random.one_of(&[0, 1, u64::MAX])),
            10 => put(FOLDS_AT + FOLD * key + 8, random.next()),
            _ => {
                let at = FOLDS_AT + random.below((HEAD - FOLDS_AT) as u64) as usize;
                self.table[at] = random.next() as u8;
            }
        }
    }

    /// Where one of the entries begins.
    fn some_row(&self, random: &mut Random) -> usize {
        let entries = self.table[0] as u64;
        row_at(random.below(entries.max(1)) as usize)
    }

    /// Vote, reason, log, decision or views of the entry at `row`.
    fn disturb_codes(&mut self, random: &mut Random, row: usize, choice: u64) {
        match choice {
            0 => self.table[row + VOTE_AT] = random.below(4) as u8,
            1 => {
                let row = self.waited_for().unwrap_or(row);
                self.table[row + VOTE_AT] = 2;
                self.table[row + REASON_AT] = random.between(1, 6) as u8;
            }
            2 => {
                self.table[row + VOTE_AT] = random.one_of(&[0, 1, 3]);
                self.table[row + REASON_AT] = 0;
            }
            3 => self.table[row + LOG_AT] = random.below(3) as u8,
            4 => self.table[row + DECIDED_AT] = random.below(3) as u8,
            5 | 6 => self.disturb_views(random, row),
            _ => self.unvote(row),
        }
    }

    /// Any view is taken as it stands, beside no log too.
    fn disturb_views(&mut self, random: &mut Random, row: usize) {
        for at in [LOG_VIEW_AT, VIEW_AT] {
            if random.chance(60) {
                self.table[row + at..row + at + 2].copy_from_slice(&view(random).to_le_bytes());
            }
        }
    }

    /// Neither a vote nor a decision at `row`.
    fn unvote(&mut self, row: usize) {
        for code in [VOTE_AT, REASON_AT, DECIDED_AT] {
            self.table[row + code] = 0;
        }
    }

    /// Where the first undecided entry begins that another waits for: an abort vote is to be met there.
    fn waited_for(&self) -> Option<usize> {
        let held = self.held();
        let waiting = held.iter().filter(|entry| entry.decision.is_none() && entry.vote == Vote::Waiting);
        let versions: Vec<u64> = waiting.flat_map(|entry| entry.body.reads.iter().map(|read| read.1)).collect();
        let place = held.iter().position(|entry| entry.decision.is_none() && versions.contains(&entry.body.stamp))?;
        Some(row_at(place))
    }

    /// Stamp, keys, counts or any byte of the entry at `row`, or all of it, at times as they are at `other`.
    fn disturb_body(&mut self, random: &mut Random, row: usize, other: usize, choice: u64) {
        match choice {
            8 | 9 => self.table.copy_within(other + STAMP..other + STAMP + 8, row + STAMP),
            10 => self.table[row + STAMP..row + STAMP + 8].copy_from_slice(&random.below(2).to_le_bytes()),
            11 => self.table.copy_within(row + KEY..row + KEY + 2, row + NEXT_KEY),
            12 => self.table.copy_within(other..other + ROW, row),
            13 => {
                let at = random.below(ROW as u64) as usize;
                self.table[row + at] = random.next() as u8;
            }
            _ => {
                let at = random.one_of(&COUNTS);
                self.table[row + at] = random.below(9) as u8;
            }
        }
    }

    /// One stamp twice: the first without a vote, the second live.
    fn hold_twice(&mut self, random: &mut Random, first: usize, second: usize) {
        self.table.copy_within(first + STAMP..first + STAMP + 8, second + STAMP);
        self.table[second + VOTE_AT] = random.one_of(&[1, 3]);
        self.table[second + REASON_AT] = 0;
        self.table[second + LOG_AT] = 0;
        self.table[second + DECIDED_AT] = random.below(2) as u8;
        self.unvote(first);
    }

    /// Damage that is lent for one call only, most of it refused with 16.
    pub fn broken_table(&self, random: &mut Random) -> Option<Vec<u8>> {
        if !random.chance(2) {
            return None;
        }
        let mut table = self.table.clone();
        let row = self.some_row(random);
        match random.below(8) {
            0 => table[0] = random.one_of(&[self.settings.capacity as u8, (self.settings.capacity as u8).wrapping_add(1), 255]),
            1 => table[row + COUNTS[0]] = random.one_of(&[8, 9, 255]),
            2 => table[row + COUNTS[1]] = random.one_of(&[8, 9, 255]),
            3 => table[row + VOTE_AT] = random.one_of(&[2, 3, 4, 5, 255]),
            4 => table[row + REASON_AT] = random.between(0, 7) as u8,
            5 => table[row + LOG_AT] = random.one_of(&[2, 3, 4, 255]),
            6 => table[row + DECIDED_AT] = random.one_of(&[2, 3, 4, 255]),
            _ => {
                let length = random.below(table.len() as u64 + 1) as usize;
                table.truncate(length);
            }
        }
        Some(table)
    }
}

// ---- a run at its start

/// Mostly small, but also where stamps outgrow a byte, where their top bit is set, and where they end.
fn lowest_stamp(random: &mut Random, spread: u64) -> u64 {
    match random.below(8) {
        0 => u64::MAX - spread,
        1 => (1 << 63) - spread / 2,
        2 => 250 - spread / 2,
        3 => random.between(1, u64::MAX - 2 * spread - 1),
        _ => random.between(1, 100),
    }
}

/// Mostly small, so that tables fill up.
fn capacity(random: &mut Random) -> u64 {
    match random.below(20) {
        0 => 255,
        1 => random.between(41, 255),
        2..=6 => random.between(1, 4),
        7..=13 => random.between(3, 10),
        _ => random.between(8, 40),
    }
}

fn u64_at(bytes: &[u8], at: usize) -> u64 {
    u64::from_le_bytes(bytes[at..at + 8].try_into().expect("eight bytes"))
}

/// No entries, mostly nothing folded; what lies behind the head need not be zero, nor the table end where the capacity does.
fn empty_table(random: &mut Random, capacity: u64) -> Vec<u8> {
    let beyond = match random.below(10) {
        0 => random.below(400) as usize,
        1 => random.below(20 * ROW as u64) as usize,
        _ => 0,
    };
    let length = table_len(capacity as usize) + beyond;
    let mut table: Vec<u8> = vec![0; HEAD];
    table.extend((HEAD..length).map(|_| if random.chance(10) { random.next() as u8 } else { 0 }));
    // any folded versions are taken as they stand
    if random.chance(4) {
        table[FOLDS_AT..HEAD].iter_mut().for_each(|byte| *byte = random.next() as u8);
    }
    table
}

/// Few, so that transactions meet at them.
fn keys(random: &mut Random) -> Vec<u16> {
    let mut keys: Vec<u16> = (0..random.between(1, 10)).map(|_| random.below(512) as u16).collect();
    if random.chance(30) {
        keys.extend([0, 511]);
    }
    keys.sort_unstable();
    keys.dedup();
    keys
}

/// Mostly within the spread of the stamps, so that test 1 goes both ways.
fn delta(random: &mut Random, spread: u64) -> u64 {
    match random.below(6) {
        0 => 0,
        1 => u64::MAX - random.below(3),
        2 => random.next(),
        _ => random.below(spread),
    }
}

// ---- lists

/// What a list needs: for logging, or else as a proof of its kind.
fn threshold(f: u64, log: bool, kind: u8, decision: Decision) -> u64 {
    let row = THRESHOLDS[f as usize - 1];
    let needed = match (log, kind, decision) {
        (true, _, Decision::Commit) => row[0],
        (true, _, Decision::Abort) => row[1],
        (false, 2, _) => row[4],
        (false, _, Decision::Commit) => row[2],
        (false, _, Decision::Abort) => row[3],
    };
    needed as u64
}

/// Box numbers, rising, with their answers: so many as decided, and at times others that are not counted.
fn pairs(random: &mut Random, boxes: u64, counted: u64, decided: u8) -> Vec<(u8, u8)> {
    let mut numbers: Vec<u8> = (0..boxes as u8).collect();
    let mut pairs = Vec::new();
    for _ in 0..counted {
        let number = numbers.remove(random.below(numbers.len() as u64) as usize);
        pairs.push((number, decided));
    }
    if random.chance(40) {
        for number in numbers {
            if random.chance(50) {
                pairs.push((number, 3 - decided));
            }
        }
    }
    // a list has at least one pair
    if pairs.is_empty() {
        pairs.push((random.below(boxes) as u8, 3 - decided));
    }
    pairs.sort_unstable();
    pairs
}

/// Election answers for a view: mostly 4f + 1, about half of them or more as decided, and all of that view.
fn answers(random: &mut Random, f: u64, decided: u8, view: u16) -> Vec<(u8, u8, u16)> {
    let (boxes, all) = (5 * f + 1, 4 * f + 1);
    let count = match random.below(16) {
        0 => all - 1,
        1 => all + 1,
        2 => random.between(1, boxes),
        _ => all,
    };
    let agree = match random.below(8) {
        0 => count / 2,
        1 | 2 => count / 2 + 1,
        3 => random.below(count + 1),
        _ => random.between(count / 2 + 1, count),
    };
    let mut numbers: Vec<u8> = (0..boxes as u8).collect();
    let mut answers: Vec<(u8, u8, u16)> = Vec::new();
    for place in 0..count {
        let number = numbers.remove(random.below(numbers.len() as u64) as usize);
        answers.push((number, if place < agree { decided } else { 3 - decided }, view));
    }
    if random.chance(6) {
        let place = random.below(count) as usize;
        answers[place].2 = beside(random, view);
    }
    if random.chance(5) {
        let other = if random.chance(50) { view.saturating_sub(1) } else { beside(random, view) };
        answers.iter_mut().for_each(|one| one.2 = other);
    }
    answers.sort_unstable();
    answers
}

/// Any number is a view: mostly one beside a line.
fn view(random: &mut Random) -> u16 {
    match random.below(4) {
        0 => 0,
        1 => random.one_of(&[1, 2, 255, 256, 257, 65534, 65535]),
        2 => random.below(256) as u16,
        _ => random.next() as u16,
    }
}

/// A view beside another, or any.
fn beside(random: &mut Random, view: u16) -> u16 {
    match random.below(8) {
        0 => view.saturating_sub(1),
        1..=3 => view,
        4 | 5 => view.saturating_add(1),
        6 => random.one_of(&[0, 1, 2, 254, 255, 256, 65533, 65534, 65535]),
        _ => self::view(random),
    }
}

// ---- damage

/// Where a message has its parts, as far as its counts can be believed.
struct Parts {
    reads: u64,
    /// Reads and writes together.
    pairs: u64,
    /// Where the list begins.
    list: usize,
    /// It is of logs, and has a view.
    logs: bool,
    /// It is a VS or an EL.
    told: bool,
    /// Where what is listed begins, the count standing before it or, in a VL, before its view; how long each is; and how many there are.
    from: usize,
    each: usize,
    listed: u64,
}

impl Parts {
    fn of(m: &[u8]) -> Parts {
        let [reads, writes] = [4, 5].map(|at| byte(m, at).min(8) as u64);
        let pairs = reads + writes;
        let list = 14 + 10 * pairs as usize;
        let logs = byte(m, list + 2) == 2;
        let (told, count, from, each) = match m.get(..2) {
            Some(b"IV") => (true, 2, 3, 3),
            Some(b"LD") => (true, 6, 7, 4),
            _ => (false, 4, if logs { 7 } else { 5 }, 2),
        };
        Parts { reads, pairs, list, logs, told, from: list + from, each, listed: byte(m, list + count).min(26) as u64 }
    }

    /// Where one of the reads and writes begins.
    fn some_pair(&self, random: &mut Random) -> usize {
        14 + 10 * random.below(self.pairs) as usize
    }

    /// Where one of the reads begins.
    fn some_read(&self, random: &mut Random) -> usize {
        14 + 10 * random.below(self.reads) as usize
    }

    /// Where one of what is listed begins.
    fn some_listed(&self, random: &mut Random) -> usize {
        self.from + self.each * random.below(self.listed) as usize
    }
}

/// 0 behind the end, since a message may have been cut before.
fn byte(m: &[u8], at: usize) -> u8 {
    m.get(at).copied().unwrap_or(0)
}

/// As far as the message goes.
fn put(m: &mut [u8], at: usize, bytes: &[u8]) {
    for (place, byte) in m.iter_mut().skip(at).zip(bytes) {
        *place = *byte;
    }
}

/// Key or stamp of an RD.
fn spoil_read(random: &mut Random, m: &mut Vec<u8>) {
    match random.below(4) {
        0 => put(m, 4, &[0; 8]),
        1 => put(m, 2, &random.one_of(&[512u16, 513, 767, 65535]).to_le_bytes()),
        2 => put(m, 4, &(u64::MAX - random.below(4)).to_le_bytes()),
        _ => spoil_raw(random, m),
    }
}

/// The stamp, the key at `pair`, or the version of a read.
fn spoil_contents(random: &mut Random, m: &mut Vec<u8>, parts: &Parts, pair: usize, choice: u64) {
    match choice {
        0 => put(m, 6, &[0; 8]),
        1 => put(m, pair, &random.one_of(&[512u16, 513, 1023, 65535]).to_le_bytes()),
        2 if parts.pairs > 1 => {
            let other = parts.some_pair(random);
            let key = [byte(m, other), byte(m, other + 1)];
            put(m, pair, &key)
        }
        3 => put(m, pair, &[0, 0]),
        4 | 5 if parts.reads > 0 => {
            let stamp: Vec<u8> = m.iter().skip(6).take(8).copied().collect();
            let read = parts.some_read(random);
            put(m, read + 2, &stamp);
            if random.chance(30) {
                put(m, read + 2, &u64::MAX.to_le_bytes());
            }
        }
        _ => spoil_raw(random, m),
    }
}

/// How many reads and writes there are.
fn spoil_counts(random: &mut Random, m: &mut [u8], choice: u64) {
    match choice {
        6 => put(m, 4, &[random.one_of(&[0, 8, 9, 255])]),
        7 => put(m, 5, &[random.one_of(&[0, 8, 9, 255])]),
        _ => put(m, 4, &[0, 0]),
    }
}

/// Another kind of list; mostly the view goes or comes with it, so that the list is as long as that kind is.
fn spoil_kind(random: &mut Random, m: &mut Vec<u8>, parts: &Parts) {
    let kind = random.one_of(&[0, 1, 2, 2, 3, 255]);
    put(m, parts.list + 2, &[kind]);
    let at = parts.list + 5;
    if m.len() < at + 2 || random.chance(40) {
        return;
    }
    match (parts.logs, kind == 2) {
        (true, false) => drop(m.drain(at..at + 2)),
        (false, true) => drop(m.splice(at..at, view(random).to_le_bytes())),
        _ => {}
    }
}

/// The view of a list of logs taken out, wholly or by half, or the list cut at it; two bytes put into a list of votes, where a view would stand.
fn spoil_view(random: &mut Random, m: &mut Vec<u8>, parts: &Parts) {
    let at = parts.list + 5;
    if m.len() < at + 2 {
        return;
    }
    match random.below(3) {
        _ if !parts.logs => drop(m.splice(at..at, view(random).to_le_bytes())),
        0 => drop(m.drain(at..at + 2)),
        1 => drop(m.remove(at)),
        _ => m.truncate(at + random.below(3) as usize),
    }
}

/// The mark of the message, of its transaction or of its list.
fn spoil_mark(random: &mut Random, m: &mut [u8], parts: &Parts, choice: u64) {
    match choice {
        18 => put(m, 0, random.one_of(&[b"PR", b"LG", b"DC", b"RD", b"IV", b"LD", b"TX", b"VL", b"VS", b"EL", b"GP", b"pr"])),
        19 => put(m, 2, random.one_of(&[b"VL", b"TY", b"tx"])),
        _ => put(m, parts.list, random.one_of(&[b"TX", b"VL", b"VS", b"EL", b"VM", b"vl"])),
    }
}

/// Cut, flipped or lengthened anywhere.
fn spoil_raw(random: &mut Random, m: &mut Vec<u8>) {
    match random.below(5) {
        0 => m.truncate(random.below(m.len() as u64 + 1) as usize),
        3 => {
            // cut at or beside the end of a mark, of the counts, or of a part
            let list = m.len().min(Parts::of(m).list);
            let length = if random.chance(50) { random.below(7) as usize } else { list.saturating_sub(1) + random.below(10) as usize };
            if m.len() > 4 && random.chance(50) {
                m[4] = random.one_of(&[0, 9, 255]);
            }
            m.truncate(length);
        }
        1 if !m.is_empty() => {
            let at = random.below(m.len() as u64) as usize;
            m[at] ^= 1 << random.below(8);
        }
        2 if !m.is_empty() => {
            let at = random.below(m.len() as u64) as usize;
            m[at] = random.next() as u8;
        }
        _ => {
            for _ in 0..random.between(1, 12) {
                let byte = random.one_of(&[0, 1, 2, b'V', b'T', 255]);
                m.push(byte);
            }
        }
    }
}
