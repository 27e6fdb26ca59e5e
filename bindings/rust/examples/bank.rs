//! Two jobs transfer between accounts.
use vorgushan::{Database, Error, Key};

fn main() -> Result<(), Error> {
    let database = Database::new()?;
    let (teller, clerk) = (database.job(1)?, database.job(2)?);
    let accounts = Key::new("Account")?;
    let (ann, bo) = (accounts.child("ann")?, accounts.child("bo")?);
    teller.set(&ann, "100")?;
    teller.set(&bo, "50")?;
    let restarts = teller.transaction(|t| {
        let from: i64 = t.get_text(&ann)?.parse().unwrap_or(0);
        if t.restarts() == 0 {
            clerk.set(&ann, "90")?; // quicker: the closure is called again
        }
        let to: i64 = t.get_text(&bo)?.parse().unwrap_or(0);
        t.set(&ann, (from - 30).to_string())?;
        t.set(&bo, (to + 30).to_string())?;
        Ok::<_, Error>(t.restarts())
    })?;
    println!("after {restarts} restart");
    for node in database.walk(&accounts) {
        let node = node?;
        println!("{} {}", node.reference, String::from_utf8_lossy(&node.value));
    }
    println!("{}", Key::new("5").unwrap_err());
    Ok(())
}
