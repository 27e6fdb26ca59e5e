//! A transaction of a job.

use crate::error::Error;
use crate::job::Job;
use std::cell::Cell;
use std::ops::Deref;

/// The open transaction that the closure of [`Job::transaction`] is given. It has the commands of its [`Job`].
pub struct Transaction<'a> {
    job: Job<'a>,
    is_open: Cell<bool>,
    is_restarted: Cell<bool>,
    restarts: Cell<u64>,
}

impl<'a> Transaction<'a> {
    /// Opens a transaction of a job that has none.
    pub(crate) fn begin(job: Job<'a>) -> Result<Transaction<'a>, Error> {
        if job.tstart()? > 1 {
            job.tcommit()?; // lowers the level again, which is all that it does there
            return Err(Error::TransactionOpen);
        }
        let (is_open, is_restarted, restarts) = (Cell::new(true), Cell::new(false), Cell::new(0));
        Ok(Transaction { job, is_open, is_restarted, restarts })
    }

    /// Calls the closure and commits, until there is no restart.
    pub(crate) fn run<T, E: From<Error>>(self, mut body: impl FnMut(&Transaction<'a>) -> Result<T, E>) -> Result<T, E> {
        loop {
            self.is_restarted.set(false);
            let answer = body(&self);
            if self.is_restarted.get() {
                continue;
            }
            let answer = answer?;
            match self.commit() {
                Ok(()) => {
                    self.is_open.set(false);
                    return Ok(answer);
                }
                Err(Error::Restarted) => self.restarts.set(self.restarts.get() + 1),
                Err(refused) => return Err(refused.into()),
            }
        }
    }

    /// TCOMMIT down to level 0: the levels too that the closure opened by lines and left open.
    fn commit(&self) -> Result<(), Error> {
        while self.job.tcommit()? > 0 {}
        Ok(())
    }

    /// TRESTART: drops what the transaction did, and answers [`Error::Restarted`], with which the closure has to end;
    /// it is then called again, whatever it answers. What it sets before it ends all the same is done in the
    /// transaction begun anew: it is committed with what the next call does, where that doesn't restart too.
    pub fn restart<T>(&self) -> Result<T, Error> {
        match self.job.trestart() {
            Err(Error::Restarted) => {
                self.is_restarted.set(true);
                self.restarts.set(self.restarts.get() + 1);
                Err(Error::Restarted)
            }
            Err(refused) => Err(refused),
            Ok(number) => Err(Error::Unknown(number as u32)),
        }
    }

    /// How often the transaction has restarted.
    pub fn restarts(&self) -> u64 {
        self.restarts.get()
    }
}

impl<'a> Deref for Transaction<'a> {
    type Target = Job<'a>;

    fn deref(&self) -> &Job<'a> {
        &self.job
    }
}

impl Drop for Transaction<'_> {
    /// Rolls back what wasn't committed. Where memory is refused for that, the transaction stays open.
    fn drop(&mut self) {
        if self.is_open.get() {
            let _ = self.job.rollback();
        }
    }
}
