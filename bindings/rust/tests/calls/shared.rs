//! A database that threads share: every call of a session, what waits for what, and a bank on four threads.

use crate::key;
use std::sync::atomic::{AtomicBool, Ordering::SeqCst};
use std::thread;
use std::time::{Duration, Instant};
use vorgushan::{Direction, Error, LockForm, Session, SharedDatabase, Start};

/// An empty database and two sessions of it.
fn two() -> (SharedDatabase, Session, Session) {
    let database = SharedDatabase::new().expect("memory for a database");
    let one = database.session(1).expect("a session");
    let other = database.session(2).expect("another");
    (database, one, other)
}

#[test]
fn a_job_has_one_session() -> Result<(), Error> {
    let (database, one, _other) = two();
    assert_eq!(database.session(1).err(), Some(Error::BadJob));
    assert_eq!(database.session(0).err(), Some(Error::BadJob));
    assert_eq!(database.session(4097).err(), Some(Error::BadJob));
    drop(one);
    database.session(1).map(|_| ())
}

#[test]
fn each_command_of_a_session() -> Result<(), Error> {
    let (_database, mut one, mut other) = two();
    let (a, a1, b) = (key("^A"), key("^A(1)"), key("^B"));
    one.set(&a, "5")?;
    assert_eq!(other.get_text(&a)?, "5");
    assert_eq!(one.increment(&a1, "-2.5")?, "-2.5");
    assert_eq!((one.data(&a)?.has_value, one.data(&a)?.has_descendants), (true, true));
    assert_eq!(one.order(&a, "", Direction::Forward)?, Some(b"1".to_vec()));
    assert_eq!(one.order(&a, "1", Direction::Forward)?, None);
    one.merge(&b, &a)?;
    assert_eq!(one.merge(&a, &a), Err(Error::MergeOverlap));
    one.kill_value(&b)?;
    assert_eq!((one.look(&b)?, one.data(&b)?.has_descendants), (None, true));
    one.kill_subscripts(&a)?;
    assert_eq!((one.look(&a)?, one.look(&a1)?), (Some(b"5".to_vec()), None));
    one.kill(&a)?;
    assert_eq!(one.get(&a)?, b"");
    one.set(&b, "text")?;
    assert_eq!((one.look_text(&a)?, one.look_text(&b)?.as_deref()), (None, Some("text")));
    one.set(&b, b"\xff")?;
    assert_eq!(one.look_text(&b), Err(Error::NotText));
    one.checkpoint()?;
    assert!(one.collect(10)?);
    while one.collect(10)? {}
    assert!(!one.collect(10)?);
    Ok(())
}

#[test]
fn each_type_can_be_shown() -> Result<(), Error> {
    let (database, mut one, mut other) = two();
    assert_eq!((format!("{database:?}"), format!("{one:?}")), ("SharedDatabase".into(), "Session".into()));
    assert_eq!(format!("{:?}", one.view()?), "SessionView");
    other.transaction(|t| {
        assert_eq!(format!("{t:?}"), "SessionTransaction");
        Ok(())
    })
}

#[test]
fn a_closure_is_called_again_after_a_conflict() -> Result<(), Error> {
    let (_database, mut one, mut other) = two();
    let a = key("^A");
    let seen = one.transaction(|t| {
        let seen = t.get_text(&a)?;
        if t.restarts() < 2 {
            other.set(&a, format!("{seen}+"))?;
        }
        t.set(&a, "mine")?;
        Ok::<_, Error>((seen, t.restarts()))
    })?;
    assert_eq!((seen, one.get_text(&a)?.as_str()), (("++".to_string(), 2), "mine"));
    Ok(())
}

#[test]
fn what_a_closure_gives_up_is_dropped() -> Result<(), Error> {
    let (_database, mut one, _other) = two();
    let a = key("^A");
    let refused = one.transaction(|t| {
        t.set(&a, "1")?;
        let inner = t.transaction(|t| t.set(&a, "2"));
        assert_eq!(inner, Err(Error::TransactionOpen));
        Err::<(), _>(Error::NoKey)
    });
    assert_eq!((refused, one.look(&a)?), (Err(Error::NoKey), None));
    one.transaction(|t| {
        t.set(&a, "1")?;
        t.restart()?;
        assert_eq!((t.get_text(&a)?.as_str(), t.restarts()), ("", 1));
        t.set(&a, "3")
    })?;
    assert_eq!(one.look(&a)?, Some(b"3".to_vec()));
    Ok(())
}

#[test]
fn who_holds_reads_on() -> Result<(), Error> {
    let (_database, mut one, mut other) = two();
    let a = key("^A");
    other.set(&a, "1")?;
    let read = one.transaction(|t| {
        let read = t.hold(|session| Ok::<_, Error>((session.get_text(&a)?, session.look_text(&a)?)))??;
        if t.restarts() == 0 {
            other.set(&a, "2")?;
        }
        Ok::<_, Error>((read, t.get_text(&a)?, t.restarts()))
    })?;
    assert_eq!(read, (("2".into(), Some("2".into())), "2".into(), 1));
    let mut view = one.view()?;
    other.set(&a, "3")?;
    assert_eq!(view.hold(|view| view.look_text(&a))??.as_deref(), Some("2"));
    drop(view);
    one.hold(|session| session.set(&a, "4"))??;
    assert_eq!(other.look_text(&a)?.as_deref(), Some("4"));
    Ok(())
}

/// A hold ends where its closure panics too.
#[test]
fn a_hold_ends_with_its_closure() -> Result<(), Error> {
    let (_database, mut one, mut other) = two();
    let hold = std::panic::AssertUnwindSafe(|| one.hold(|_| panic!("on purpose")));
    assert!(std::panic::catch_unwind(hold).is_err());
    other.set(&key("^A"), "1")
}

/// And one of a view, which lasts: else another's call would wait for ever.
#[test]
fn a_hold_of_a_view_ends_with_its_closure() -> Result<(), Error> {
    let (_database, mut one, mut other) = two();
    let mut view = one.view()?;
    let hold = std::panic::AssertUnwindSafe(|| view.hold(|_| panic!("on purpose")));
    assert!(std::panic::catch_unwind(hold).is_err());
    let (done, is_done) = std::sync::mpsc::channel();
    let setting = std::thread::spawn(move || done.send(other.set(&key("^A"), "1").is_ok()));
    assert_eq!(is_done.recv_timeout(std::time::Duration::from_secs(20)), Ok(true));
    setting.join().expect("the thread ends").expect("it is heard");
    drop(view);
    Ok(())
}

#[test]
fn a_view_stays() -> Result<(), Error> {
    let (_database, mut one, mut other) = two();
    let (a, a1) = (key("^A"), key("^A(1)"));
    other.set(&a, "1")?;
    let mut view = one.view()?;
    other.set(&a, "2")?;
    other.set(&a1, "3")?;
    assert_eq!((view.look_text(&a)?.as_deref(), view.data(&a)?.has_descendants), (Some("1"), false));
    assert_eq!(view.nodes(&a)?.len(), 1);
    assert_eq!(view.order(&a, "", Direction::Forward)?, None);
    assert!(view.query(&a, Start::AtKey, Direction::Forward)?.is_none());
    drop(view);
    let mut view = one.view()?;
    other.kill(&a)?;
    assert_eq!(view.order(&a, "", Direction::Forward)?, Some(b"1".to_vec()));
    assert_eq!(view.order(&a, "1", Direction::Backward)?, None);
    let first = view.query(&a, Start::AtKey, Direction::Forward)?.expect("a node is there");
    assert_eq!(first.reference(), a1.reference());
    assert!(view.query(&a1, Start::BelowKey, Direction::Backward)?.is_some());
    drop(view);
    other.set(&a, "2")?;
    other.set(&a1, "3")?;
    assert_eq!((one.look(&a)?, one.view()?.nodes(&a)?.len()), (Some(b"2".to_vec()), 2));
    Ok(())
}

#[test]
fn a_lock_waits_for_as_long_as_is_said() -> Result<(), Error> {
    let (_database, mut one, mut other) = two();
    let a = key("^A");
    let some_time = Duration::from_millis(30);
    assert!(one.lock(LockForm::Only, &[&a], None)?);
    let start = Instant::now();
    assert!(!other.lock(LockForm::Only, &[&a], Some(Duration::ZERO))?);
    assert!(!other.lock(LockForm::Only, &[&a], Some(some_time))?);
    assert!(start.elapsed() >= some_time);
    assert_eq!(other.lock(LockForm::More, &[], None), Err(Error::NoKey));
    one.unlock()?;
    assert!(other.lock(LockForm::Only, &[&a], Some(Duration::ZERO))?);
    Ok(())
}

/// Another thread waits for a name until this has been done with the session that has it.
fn is_had_after(give_back: impl FnOnce(Session) -> Option<Session>) -> Result<(), Error> {
    let (_database, mut one, mut other) = two();
    assert!(one.lock(LockForm::Only, &[&key("^A")], None)?);
    thread::scope(|scope| {
        let waits = scope.spawn(move || other.lock(LockForm::Only, &[&key("^A")], None));
        thread::sleep(Duration::from_millis(20));
        let _kept = give_back(one);
        assert_eq!(waits.join().expect("no panic"), Ok(true));
    });
    Ok(())
}

#[test]
fn a_waiting_lock_is_had_once_the_other_gives_it_back() -> Result<(), Error> {
    is_had_after(|mut one| one.unlock().ok().map(|()| one))?;
    is_had_after(|one| {
        drop(one);
        None
    })?;
    is_had_after(|mut one| one.lock(LockForm::Fewer, &[&key("^A")], None).ok().map(|_| one))?;
    is_had_after(|mut one| one.lock(LockForm::Only, &[&key("^B")], None).ok().map(|_| one))
}

/// How long the next waits at most, and they are to have it in the half of that.
const PATIENCE: Duration = Duration::from_secs(20);

/// Whether a session has a name long before its patience is over.
fn has_it_soon(mut waits: Session) -> bool {
    let start = Instant::now();
    let had = waits.lock(LockForm::Only, &[&key("^A")], Some(PATIENCE));
    had == Ok(true) && start.elapsed() < PATIENCE / 2
}

#[test]
fn what_is_released_in_a_transaction_others_have_after_the_commit() -> Result<(), Error> {
    let (_database, mut one, other) = two();
    let mut other = Some(other);
    let waits = one.transaction(|t| {
        t.lock(LockForm::Only, &[&key("^A")], None)?;
        t.unlock()?;
        let other = other.take().expect("the closure is called once");
        let waits = thread::spawn(|| has_it_soon(other));
        thread::sleep(Duration::from_millis(50));
        Ok::<_, Error>(waits)
    })?;
    assert!(waits.join().expect("no panic"));
    Ok(())
}

#[test]
fn what_a_rollback_gives_back_others_have_after_the_next_unlock() -> Result<(), Error> {
    let (_database, mut one, other) = two();
    one.lock(LockForm::Only, &[&key("^A")], None)?;
    let rolled_back = one.transaction(|t| t.unlock().and(Err::<(), _>(Error::NoKey)));
    assert_eq!(rolled_back, Err(Error::NoKey));
    let waits = thread::spawn(|| has_it_soon(other));
    thread::sleep(Duration::from_millis(50));
    one.unlock()?;
    assert!(waits.join().expect("no panic"));
    Ok(())
}

#[test]
fn a_set_comes_through_beside_readers_without_a_pause() -> Result<(), Error> {
    let (database, mut one, _other) = two();
    let (a, over, tired) = (key("^A"), AtomicBool::new(false), AtomicBool::new(false));
    for number in 0..3000 {
        one.set(&a.child(number)?, "value")?;
    }
    thread::scope(|scope| {
        let read = |job: u64| -> Result<(), Error> {
            let (mut session, a) = (database.session(job)?, key("^A"));
            for _ in 0..1000 {
                if over.load(SeqCst) {
                    return Ok(());
                }
                session.view()?.nodes(&a)?;
                session.look(&a)?;
            }
            tired.store(true, SeqCst);
            Ok(())
        };
        let readers: Vec<_> = (3..7).map(|job| scope.spawn(move || read(job))).collect();
        thread::sleep(Duration::from_millis(50));
        one.set(&a, "another").expect("a SET");
        drop(database.session(9).expect("a session"));
        assert!(!tired.load(SeqCst));
        over.store(true, SeqCst);
        readers.into_iter().for_each(|reader| assert_eq!(reader.join().expect("no panic"), Ok(())));
    });
    Ok(())
}

#[test]
fn a_bank_on_four_threads() -> Result<(), Error> {
    const ACCOUNTS: u64 = 8;
    let (database, mut auditor, _other) = two();
    let account = |number: u64| key(&format!("^Account({number})"));
    for number in 0..ACCOUNTS {
        auditor.set(&account(number), "100")?;
    }
    let teller = |job: u64| -> Result<(), Error> {
        let mut session = database.session(job)?;
        for turn in 0..200 {
            let (from, to) = (account(turn * job % ACCOUNTS), account((turn * job + 1) % ACCOUNTS));
            session.transaction(|t| {
                let has = t.get_text(&from)?.parse().unwrap_or(0i64);
                t.set(&from, (has - 1).to_string())?;
                let has = t.get_text(&to)?.parse().unwrap_or(0i64);
                t.set(&to, (has + 1).to_string())
            })?;
        }
        Ok(())
    };
    thread::scope(|scope| {
        let tellers: Vec<_> = (3..7).map(|job| scope.spawn(move || teller(job))).collect();
        for _ in 0..20 {
            let mut view = auditor.view().expect("a view");
            let sum: i64 = (0..ACCOUNTS)
                .map(|number| view.look_text(&account(number)).expect("a look").expect("a value"))
                .map(|text| text.parse::<i64>().expect("a number"))
                .sum();
            assert_eq!(sum, 800);
        }
        tellers.into_iter().for_each(|teller| assert_eq!(teller.join().expect("no panic"), Ok(())));
    });
    Ok(())
}
