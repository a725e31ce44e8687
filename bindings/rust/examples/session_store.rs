//! A bounded store of sessions: whoever logs in gets a token; a session that wasn't used for too long has expired;
//! and if there are too many, those used longest ago are evicted.
//!
//! `cargo run --example session_store` simulates one day, and ends with status 0 if the store behaved correctly.

use bucket::{Cache, NoMemory};
use std::fmt;

/// A user's session.
#[derive(Debug)]
struct Session {
    user: String,
    last_used: u64,
    pages: Vec<String>,
}

/// Why a request has no session.
#[derive(Debug, PartialEq)]
enum Refused {
    /// Nobody has this token, or its session was evicted for another one.
    Unknown,
    /// It wasn't used for too long.
    Expired,
}

/// The sessions of a server, up to a maximum number. Times are in seconds.
struct SessionStore {
    sessions: Cache<String, Session>,
    lifetime: u64,
    logins: u64,
    evicted: u64,
}

impl SessionStore {
    fn new(most: usize, lifetime: u64) -> Result<SessionStore, NoMemory> {
        Ok(SessionStore { sessions: Cache::new(most)?, lifetime, logins: 0, evicted: 0 })
    }

    /// Opens a session, and returns its token. If allocation fails, no session is evicted.
    fn log_in(&mut self, user: &str, now: u64) -> Result<String, NoMemory> {
        self.logins += 1;
        let token = format!("{:016x}", self.logins.wrapping_mul(0x9e37_79b9_7f4a_7c15)); // a true one is random
        let session = Session { user: user.to_string(), last_used: now, pages: Vec::new() };
        if let Some((_, gone)) = self.sessions.put(token.clone(), session)? {
            self.evicted += 1;
            if self.evicted == 1 {
                println!("the first evicted session is that of {}", gone.user);
            }
        }
        Ok(token)
    }

    /// Returns the session of a token, and records its use.
    fn visit(&mut self, token: &str, page: &str, now: u64) -> Result<&mut Session, Refused> {
        let session = self.sessions.peek(token).ok_or(Refused::Unknown)?;
        if now - session.last_used > self.lifetime {
            self.sessions.remove(token);
            return Err(Refused::Expired);
        }
        let session = self.sessions.get_mut(token).ok_or(Refused::Unknown)?;
        session.last_used = now;
        session.pages.push(page.to_string());
        Ok(session)
    }

    fn log_out(&mut self, token: &str) -> Option<Session> {
        self.sessions.remove(token)
    }

    /// Drops the expired sessions, and returns how many there were.
    fn sweep(&mut self, now: u64) -> usize {
        let before = self.sessions.len();
        let lifetime = self.lifetime;
        self.sessions.retain(|_, session| now - session.last_used <= lifetime);
        before - self.sessions.len()
    }
}

impl fmt::Display for SessionStore {
    fn fmt(&self, f: &mut fmt::Formatter<'_>) -> fmt::Result {
        let (len, most) = (self.sessions.len(), self.sessions.cap());
        write!(f, "{len} sessions of at most {most}, {} logins, {} evicted", self.logins, self.evicted)
    }
}

fn main() -> Result<(), NoMemory> {
    let mut store = SessionStore::new(1024, 3600)?;
    let ann = store.log_in("Ann", 0)?;
    let bob = store.log_in("Bob", 0)?;
    // Ten thousand guests come in a day, one every nine seconds; Ann looks around all the time, and Bob never.
    for guest in 0..10_000 {
        let now = guest * 9;
        let token = store.log_in(&format!("guest {guest}"), now)?;
        assert!(store.visit(&token, "/", now).is_ok());
        assert!(store.visit(&ann, "/news", now).is_ok());
        assert!(store.sessions.len() <= store.sessions.cap());
    }
    println!("{store}");
    let now = 90_000;
    assert_eq!(store.visit(&bob, "/", now).err(), Some(Refused::Unknown));
    let swept = store.sweep(now);
    println!("{swept} had expired; {store}");
    assert!(swept > 0 && store.sessions.iter().all(|(_, session)| now - session.last_used <= 3600));
    let session = store.log_out(&ann).expect("Ann was never away for an hour");
    println!("{} leaves after {} pages", session.user, session.pages.len());
    assert_eq!(session.pages.len(), 10_000);
    assert_eq!(store.visit(&ann, "/", now).err(), Some(Refused::Unknown));
    let eve = store.log_in("Eve", now)?;
    assert_eq!(store.visit(&eve, "/", now + 4000).err(), Some(Refused::Expired));
    Ok(())
}
