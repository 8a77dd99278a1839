//! Marking many rule files in turn, a rule at a time (02, order 13).

use crate::error::{Error, BAD_JOB, MARKS_TOO_SHORT, NO_JOB};
use crate::format::System;
use crate::marking::orientations;

/// The most jobs.
pub const MAX_JOBS: usize = 32;
/// The bytes of marks for a job.
pub const JOB_MARKS: usize = 1_023;

/// 02: a desk. A rule file in a buffer, and how many of its rules are marked.
#[derive(Clone, Copy, Debug, PartialEq, Eq)]
pub struct Job {
    pub start: usize,
    pub length: usize,
    pub marked: usize,
}

impl Job {
    /// The job's system, if its file lies in the buffer, is read, and has at least as many rules as are marked.
    fn system(&self, buffer: &[u8]) -> Option<System> {
        let file = buffer.get(self.start..)?.get(..self.length)?;
        System::from_packed(file).ok().filter(|system| self.marked <= system.rule_count())
    }
}

/// 02: a turn. Marks the next rule of the next job after the last served, going round, that has rules left, and gives
/// its index; none where no job has rules left.
pub fn turn(jobs: &mut [Job], buffer: &[u8], marks: &mut [u8], last: usize) -> Result<Option<usize>, Error> {
    let count = jobs.len();
    if count > MAX_JOBS || last >= count {
        return Err(Error { code: NO_JOB, input: 0, offset: 0 });
    }
    let mut systems = Vec::new();
    for (index, job) in jobs.iter().enumerate() {
        systems.push(job.system(buffer).ok_or(Error { code: BAD_JOB, input: 0, offset: index })?);
    }
    if marks.len() < JOB_MARKS * count {
        return Err(Error { code: MARKS_TOO_SHORT, input: 2, offset: 0 });
    }
    let round = (1..=count).map(|step| (last + step) % count);
    let next = round.into_iter().find(|&index| jobs[index].marked < systems[index].rule_count());
    if let Some(index) = next {
        let number = jobs[index].marked;
        let (orientation, _) = orientations(&systems[index]).nth(number).expect("the rule is there");
        marks[JOB_MARKS * index + number] = orientation as u8;
        jobs[index].marked += 1;
    }
    Ok(next)
}
