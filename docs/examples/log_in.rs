// The logins of a service, as docs/USE.md describes them. The file that includes this one has `PEPPER`, a key from a
// secret store, and the queue `argon2::Line::new(2, 64)`, in which two logins compute at a time and 64 wait.

use std::ops::ControlFlow;

/// The longest password, in bytes.
const LONGEST: usize = 1024;

/// What a login comes to.
#[derive(Debug, PartialEq)]
enum Login {
    /// Let the user in. If there is a new encoded hash, store it in place of the old one.
    Accepted(Option<String>),

    /// The user or the password is wrong: answer with HTTP status 401.
    Rejected,

    /// Nothing was verified: answer "try again later", with HTTP status 503.
    TryLater,
}

/// Logs in a user. `stored` is the user's encoded hash, or `None` if there is no such user. `has_left` says whether the
/// client has left.
fn log_in(
    line: &argon2::Line,
    user: &str,
    password: &[u8],
    stored: Option<&str>,
    has_left: impl Fn() -> bool,
) -> Login {
    if password.len() > LONGEST {
        eprintln!("too long a password: {user:?}");
        return Login::Rejected;
    }
    let mut place = match line.wait() {
        Ok(place) => place,
        Err(busy) => {
            eprintln!("{busy}: {user:?}");
            return Login::TryLater;
        }
    };
    let today = argon2::Config { secret: PEPPER, ..argon2::Config::default() };
    let stop_if_left = |_, _| if has_left() { ControlFlow::Break(()) } else { ControlFlow::Continue(()) };
    let mut run = place.run().with_progress(stop_if_left);
    let verdict = match stored {
        Some(stored) => run.verify_and_update(stored, password, &today),
        None => run.verify_unknown(password, &today).map(|_| (false, None)).map_err(Into::into),
    };
    match verdict {
        Ok((true, update)) => {
            eprintln!("logged in: {user:?}");
            Login::Accepted(update)
        }
        Ok((false, _)) => {
            eprintln!("wrong user or password: {user:?}");
            Login::Rejected
        }
        Err(error) => {
            eprintln!("error: {user:?}: {error}");
            Login::TryLater
        }
    }
}
