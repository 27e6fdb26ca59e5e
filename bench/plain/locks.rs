//! Locks: how often each job wants and holds each name, and who holds something at, over and under a name.
use crate::key::{name_len, subscript_len};
use crate::line::{Form, MOST_JOBS, Refusal};
use std::collections::{BTreeMap, HashMap};

const MOST_COUNT: usize = 65535;

/// A name as a job has it.
#[derive(Default)]
struct Count {
    want: usize,
    /// What keeps others off: inside a transaction the most that was wanted since the first LOCK there.
    held: usize,
    /// What was wanted before the first LOCK in the transaction, where one has changed it.
    start: Option<usize>,
}

#[derive(Default)]
struct JobLocks {
    counts: BTreeMap<Box<[u8]>, Count>,
    /// The names with a start.
    changed: Vec<Box<[u8]>>,
}

/// A name or an ancestor of one.
#[derive(Default)]
struct Level {
    /// The job that holds just this.
    holder: Option<u16>,
    /// How many names each job holds at and under this, by rising jobs.
    below: Vec<(u16, usize)>,
}

/// Of a name's bytes those of its ancestors and, at last, of itself.
fn levels(name: &[u8]) -> impl Iterator<Item = &[u8]> {
    let first = 1 + name_len(&name[1..]);
    std::iter::successors(Some(first), |end| (*end < name.len()).then(|| end + subscript_len(&name[*end..])))
        .map(|end| &name[..end])
}

#[derive(Default)]
struct Held(HashMap<Box<[u8]>, Level>);

impl Held {
    /// Whether another job holds the name, an ancestor or a descendant.
    fn is_blocked(&self, job: u16, name: &[u8]) -> bool {
        for path in levels(name) {
            let Some(level) = self.0.get(path) else { return false };
            if level.holder.is_some_and(|holder| holder != job) {
                return true;
            }
            if path.len() == name.len() {
                return level.below.iter().take(2).any(|(other, _)| *other != job);
            }
        }
        false
    }

    fn add(&mut self, job: u16, name: &[u8]) {
        for path in levels(name) {
            if !self.0.contains_key(path) {
                self.0.insert(path.into(), Level::default());
            }
            let level = self.0.get_mut(path).unwrap();
            match level.below.binary_search_by_key(&job, |(other, _)| *other) {
                Ok(at) => level.below[at].1 += 1,
                Err(at) => level.below.insert(at, (job, 1)),
            }
            if path.len() == name.len() {
                level.holder = Some(job);
            }
        }
    }

    fn remove(&mut self, job: u16, name: &[u8]) {
        for path in levels(name) {
            let level = self.0.get_mut(path).unwrap();
            let at = level.below.binary_search_by_key(&job, |(other, _)| *other).unwrap();
            level.below[at].1 -= 1;
            if level.below[at].1 == 0 {
                level.below.remove(at);
            }
            if path.len() == name.len() {
                level.holder = None;
            }
            if level.below.is_empty() {
                self.0.remove(path);
            }
        }
    }
}

impl JobLocks {
    fn want(&self, name: &[u8]) -> usize {
        self.counts.get(name).map_or(0, |count| count.want)
    }

    /// Whether these names more would make a count too great.
    fn is_too_many(&self, names: &[Box<[u8]>], anew: bool) -> bool {
        let had = |name: &[u8]| if anew { 0 } else { self.want(name) };
        if names.iter().all(|name| had(name) + names.len() <= MOST_COUNT) {
            return false;
        }
        let mut counts: HashMap<&[u8], usize> = HashMap::new();
        names.iter().any(|name| {
            let count = counts.entry(name).or_insert_with(|| had(name));
            *count += 1;
            *count > MOST_COUNT
        })
    }

    /// The job comes to want a name so often as `change` makes of how often it does.
    fn change(&mut self, held: &mut Held, job: u16, inside: bool, name: Box<[u8]>, change: impl Fn(usize) -> usize) {
        if !self.counts.contains_key(&name) {
            if change(0) == 0 {
                return;
            }
            self.counts.insert(name.clone(), Count::default());
        }
        let count = self.counts.get_mut(&name).unwrap();
        if inside && count.start.is_none() {
            count.start = Some(count.want);
            self.changed.push(name.clone());
        }
        count.want = change(count.want);
        let holds = if inside { count.held.max(count.want) } else { count.want };
        self.hold(held, job, name, holds);
    }

    /// The job holds a name, which is counted, so often.
    fn hold(&mut self, held: &mut Held, job: u16, name: Box<[u8]>, holds: usize) {
        let count = self.counts.get_mut(&name).unwrap();
        let before = std::mem::replace(&mut count.held, holds);
        match (before, holds) {
            (0, 1..) => held.add(job, &name),
            (1.., 0) => held.remove(job, &name),
            _ => {}
        }
        if holds == 0 && count.start.is_none() {
            self.counts.remove(&name);
        }
    }

    fn give_all(&mut self, held: &mut Held, job: u16, inside: bool) {
        let wanted = self.counts.iter().filter(|(_, count)| count.want > 0);
        let names: Vec<_> = wanted.map(|(name, _)| name.clone()).collect();
        for name in names {
            self.change(held, job, inside, name, |_| 0);
        }
    }

    /// The end of a transaction, or a new beginning: what is wanted is held; `back` puts back what was at its start.
    fn end(&mut self, held: &mut Held, job: u16, back: bool) {
        for name in std::mem::take(&mut self.changed) {
            let count = self.counts.get_mut(&name).unwrap();
            let start = count.start.take().unwrap();
            if back {
                count.want = start;
            }
            let holds = count.want;
            self.hold(held, job, name, holds);
        }
    }
}

#[derive(Default)]
pub struct Locks {
    jobs: Vec<JobLocks>,
    held: Held,
}

impl Locks {
    fn job(&mut self, job: u16) -> (&mut JobLocks, &mut Held) {
        if self.jobs.is_empty() {
            self.jobs.resize_with(MOST_JOBS + 1, JobLocks::default);
        }
        (&mut self.jobs[usize::from(job)], &mut self.held)
    }

    /// LOCK without names.
    pub fn release(&mut self, job: u16, inside: bool) {
        let (locks, held) = self.job(job);
        locks.give_all(held, job, inside);
    }

    /// LOCK with names: whether the job has them.
    pub fn lock(&mut self, job: u16, inside: bool, form: Form, names: Vec<Box<[u8]>>) -> Result<bool, Refusal> {
        let (locks, held) = self.job(job);
        if let Form::Fewer = form {
            for name in names {
                locks.change(held, job, inside, name, |want| want.saturating_sub(1));
            }
            return Ok(true);
        }
        let anew = matches!(form, Form::Only);
        if locks.is_too_many(&names, anew) {
            return Err(Refusal::LockCountFull);
        }
        if anew {
            locks.give_all(held, job, inside);
        }
        if names.iter().any(|name| held.is_blocked(job, name)) {
            return Ok(false);
        }
        for name in names {
            locks.change(held, job, inside, name, |want| want + 1);
        }
        Ok(true)
    }

    pub fn commit(&mut self, job: u16) {
        let (locks, held) = self.job(job);
        locks.end(held, job, false);
    }

    pub fn go_back(&mut self, job: u16) {
        let (locks, held) = self.job(job);
        locks.end(held, job, true);
    }

    /// The end of a session.
    pub fn halt(&mut self, job: u16) {
        self.go_back(job);
        self.release(job, false);
    }
}
