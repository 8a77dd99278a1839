//! Turns over jobs. Each is compared with the twin's, the jobs and all memory around the marks included; each class is
//! run until it is idle, while the others hand in, take away and write over books and marks. One job is watched that
//! nobody else changes: it is served as soon as is promised, and has the marks that marking alone gives.

use ackbo::{Desk, Turn};
use twin::generate::{damaged_packed, Book, Random};
use twin::jobs::{JOB_MARKS, MAX_JOBS};
use twin::{mark, turn, Error, Job};

use crate::counts::Counts;
use crate::SEED;

const CLASSES: usize = 20_000;
/// The most changes by the others in a class; then it runs to its end.
const CHANGES: usize = 6;
/// The bytes before and after the marks.
const GUARD: usize = 3;

/// A class, with the jobs and the memory around the marks once for the library and once for the twin.
struct Class {
    buffer: Vec<u8>,
    desks: Vec<Desk>,
    jobs: Vec<Job>,
    lent: Vec<u8>,
    memory: Vec<u8>,
    room: usize,
}

impl Class {
    fn random(random: &mut Random, count: usize, rules: usize) -> Self {
        let room = JOB_MARKS * count + random.below(3);
        let memory: Vec<u8> = (0..room + 2 * GUARD).map(|index| (index * 37 >> 3) as u8).collect();
        let (desks, jobs, lent) = (Vec::new(), Vec::new(), memory.clone());
        let mut class = Class { buffer: Vec::new(), desks, jobs, lent, memory, room };
        for index in 0..count {
            class.desks.push(Desk::default());
            class.jobs.push(Job { start: 0, length: 0, marked: 0 });
            class.hand_in(random, index, rules);
        }
        class
    }

    fn set(&mut self, index: usize, job: Job) {
        self.jobs[index] = job;
        self.desks[index] = Desk { start: job.start, length: job.length, marked: job.marked };
    }

    /// A job gets a book of its own, or shares that of another job.
    fn hand_in(&mut self, random: &mut Random, index: usize, rules: usize) {
        let other = self.jobs[random.below(index + 1)];
        if other.length > 0 && random.one_in(5) {
            self.set(index, Job { marked: 0, ..other });
            return;
        }
        let book = if random.one_in(16) { Book::any(random, rules) } else { Book::random(random, rules) }.packed();
        self.set(index, Job { start: self.buffer.len(), length: book.len(), marked: 0 });
        self.buffer.extend(book);
    }

    /// A turn of the library and of the twin, which agree in the reply, the jobs and the memory.
    fn turn(&mut self, last: usize) -> Result<Option<usize>, Error> {
        let marks = GUARD..GUARD + self.room;
        let proved = ackbo::turn(&mut self.desks, &self.buffer, &mut self.lent[marks.clone()], last);
        let reply = turn(&mut self.jobs, &self.buffer, &mut self.memory[marks], last);
        let proved = proved
            .map(|turn| match turn {
                Turn::Served(index) => Some(index),
                Turn::Idle => None,
            })
            .map_err(|error| Error { code: error.code, input: error.input, offset: error.offset });
        assert_eq!(proved, reply);
        let same =
            |(desk, job): (&Desk, &Job)| (desk.start, desk.length, desk.marked) == (job.start, job.length, job.marked);
        assert!(self.desks.iter().zip(&self.jobs).all(same));
        assert!(self.lent == self.memory);
        reply
    }

    /// What the others may do between two turns; the watched job keeps its index, record, book and marks.
    fn change(&mut self, random: &mut Random, watched: usize, rules: usize) {
        let others: Vec<usize> = (0..self.jobs.len()).filter(|&index| index != watched).collect();
        let Some(&index) = random.choose(&others) else { return };
        let job = self.jobs[index];
        match random.below(5) {
            0 | 1 => self.hand_in(random, index, rules),
            // Takes the book away: what is left has no rules, or is no book.
            2 if random.one_in(2) => self.set(index, Job { start: 0, length: 0, marked: 0 }),
            2 => self.hand_in(random, index, 0),
            // Writes over its book, also where others but the watched one have it too.
            3 => {
                let kept = self.jobs[watched];
                let place = job.start + random.below(job.length.max(1));
                if place < self.buffer.len() && !(kept.start..kept.start + kept.length).contains(&place) {
                    self.buffer[place] ^= 1 << random.below(8);
                }
                self.set(index, Job { marked: random.below(rules + 2), ..job });
            }
            _ => {
                let (byte, value) = (GUARD + JOB_MARKS * index + random.below(JOB_MARKS), random.bits() as u8);
                self.lent[byte] = value;
                self.memory[byte] = value;
                self.set(index, Job { marked: 0, ..job });
            }
        }
    }

    /// The marks that marking a job's book alone gives.
    fn alone(&self, index: usize) -> Vec<u8> {
        let job = self.jobs[index];
        let mut marks = vec![0; JOB_MARKS];
        let rules = mark(&self.buffer[job.start..job.start + job.length], &mut marks).unwrap().rules;
        marks.truncate(rules);
        marks
    }

    /// The class with one thing wrong, or two.
    fn damage(&mut self, random: &mut Random) {
        for _ in 0..random.between(1, 3) {
            let index = random.below(self.jobs.len());
            let job = self.jobs[index];
            match random.below(6) {
                0 => self.set(index, Job { start: random.bits() as usize, ..job }),
                1 => self.set(index, Job { length: usize::MAX - random.below(3), ..job }),
                2 => self.set(index, Job { marked: job.marked + 1 + random.below(2), ..job }),
                3 => self.set(index, Job { length: 0, ..job }),
                4 => self.room = self.room.min(JOB_MARKS * self.jobs.len() - 1 - random.below(2)),
                _ => {
                    let book = Book::any(random, 4);
                    let book = damaged_packed(random, &book);
                    self.set(index, Job { start: self.buffer.len(), length: book.len(), marked: 0 });
                    self.buffer.extend(book);
                }
            }
        }
    }
}

/// How often turns served a job and others changed something, and how long the watched job waited at most.
#[derive(Default)]
struct Served {
    turns: usize,
    longest_wait: usize,
    changes: usize,
}

/// Runs a class until it is idle; a job at fault hands in again.
fn run(random: &mut Random, class: &mut Class, rules: usize, counts: &mut Counts, served: &mut Served) -> usize {
    let count = class.jobs.len();
    let watched = random.below(count);
    let alone = class.alone(watched);
    let (mut last, mut wait) = (random.below(count), 0);
    let mut changes = random.below(CHANGES + 1);
    loop {
        let reply = class.turn(last);
        counts.add(&reply);
        match reply {
            Ok(Some(index)) => {
                served.turns += 1;
                wait = if index == watched { 0 } else { wait + 1 };
                last = index;
            }
            Ok(None) if changes == 0 => break,
            Ok(None) => wait = 0,
            Err(error) => {
                assert_ne!(error.offset, watched);
                class.hand_in(random, error.offset, rules);
                wait = 0;
            }
        }
        if class.jobs[watched].marked == alone.len() {
            wait = 0;
        }
        served.longest_wait = served.longest_wait.max(wait);
        assert!(wait < count, "{wait} turns of {count} jobs passed");
        if changes > 0 && random.one_in(2) {
            class.change(random, watched, rules);
            served.changes += 1;
            changes -= 1;
        }
    }
    assert_eq!(class.jobs[watched].marked, alone.len());
    assert_eq!(class.memory[GUARD + JOB_MARKS * watched..][..alone.len()], alone);
    last
}

#[test]
fn classes_run_as_the_twins_do() {
    let mut random = Random::new(SEED + 13);
    let mut counts = Counts::default();
    let mut served = Served::default();
    let mut most = [0; MAX_JOBS + 1];
    for _ in 0..CLASSES {
        let many = random.one_in(60);
        let (count, rules) = if many { (random.between(1, MAX_JOBS), 2) } else { (random.between(1, 4), 3) };
        most[count] += 1;
        let mut class = Class::random(&mut random, count, rules);
        let last = run(&mut random, &mut class, rules, &mut counts, &mut served);
        class.damage(&mut random);
        counts.add(&class.turn(last));
        counts.add(&class.turn(count + random.below(2)));
    }
    let mut crowd = Class::random(&mut random, MAX_JOBS + 1, 1);
    counts.add(&crowd.turn(0));
    counts.add(&Class::random(&mut random, 0, 0).turn(0));
    counts.print("turns");
    println!("  served: {}, changes by others: {}", served.turns, served.changes);
    println!("  classes of 1, 2 .. jobs: {:?}; the longest wait: {}", &most[1..], served.longest_wait);
    counts.require(0, &[24, 25]);
    counts.require(1, &[]);
    counts.require(2, &[12]);
    assert!(most[1..].iter().all(|&classes| classes > 0) && served.longest_wait > 8);
    assert!(served.turns >= 2 * CLASSES && served.changes >= CLASSES);
}
