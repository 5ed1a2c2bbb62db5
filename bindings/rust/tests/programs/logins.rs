//! What docs/examples/log_in.rs answers to each kind of login. Its line has one place here, so that a login which does
//! not leave the place makes all later ones busy.

const PEPPER: &[u8] = b"pepper";

include!("log_in.rs");

/// An encoded hash with older settings.
fn older(password: &[u8]) -> String {
    let config = argon2::Config { mem_cost: 4096, time_cost: 1, secret: PEPPER, ..argon2::Config::default() };
    argon2::hash_password_with(password, &config).unwrap()
}

fn main() {
    let line = argon2::Line::new(1, 0);
    let (of_word, of_long, of_zero) = (older(b"password"), older(&[b'a'; 1025]), older(b"correct"));
    for (password, stored, has_left, expected) in [
        (&b"Password"[..], Some(&*of_word), false, Login::Rejected),
        (b"password", None, false, Login::Rejected),
        (&[b'a'; 1025], Some(&of_long), false, Login::Rejected),
        (b"correct\0more", Some(&of_zero), false, Login::Rejected),
        (b"password", Some("$argon2id$"), false, Login::TryLater),
        (b"password", Some(&of_word), true, Login::TryLater),
    ] {
        assert_eq!(log_in(&line, "somebody", password, stored, || has_left), expected, "{stored:?}");
    }
    let place = line.wait().unwrap();
    assert_eq!(log_in(&line, "somebody", b"password", Some(&of_word), || false), Login::TryLater);
    drop(place);
    match log_in(&line, "x\nlogged in: root", b"password", Some(&of_word), || false) {
        Login::Accepted(Some(update)) => {
            assert!(update.contains("m=19456,t=2,p=1"), "{update}");
            assert_eq!(log_in(&line, "x", b"password", Some(&update), || false), Login::Accepted(None));
        }
        other => panic!("{other:?}"),
    }
}
