//! The vectors of other implementations in bindings/vectors, and random hashes of libargon2. The script drawn.py there
//! prints these; $RANDOM_HASHES names the file that contains them.

use proved_argon2::{
    needs_rehash, read, verify_encoded, Config, Error, Limits, Memory, Run, ThreadMode, Variant, Version,
};

const RAW: &str = include_str!("../../vectors/raw.txt");
const TEXTS: &str = include_str!("../../vectors/texts.txt");

/// The bytes of hexadecimal digits. `-` stands for no bytes.
fn bytes_of(field: &str) -> Vec<u8> {
    let digits = if field == "-" { "" } else { field };
    (0..digits.len()).step_by(2).map(|at| u8::from_str_radix(&digits[at..at + 2], 16).unwrap()).collect()
}

/// The lines of raw.txt, and the random hashes, if there are any.
fn lines() -> Vec<String> {
    let drawn = std::env::var("RANDOM_HASHES").map(|file| std::fs::read_to_string(file).unwrap());
    let lines: Vec<_> = RAW.lines().chain(drawn.as_deref().unwrap_or("").lines()).map(str::to_owned).collect();
    assert_eq!(lines.len(), if drawn.is_ok() { 1040 } else { 240 });
    lines
}

fn answer_of(error: &Error) -> String {
    format!("ERR {error}")
}

/// Makes the calls of a run with the inputs of a line. If the line has a tag, the tag and the encoded hash have to
/// verify with this secret only. Otherwise the calls that hash have to return the error of the line.
fn check(run: &mut Run<'_>, line: &str) {
    let fields: Vec<&str> = line.splitn(11, ' ').collect();
    let number = |index: usize| fields[index].parse().unwrap();
    let [pwd, salt, secret, ad] = [6, 7, 8, 9].map(|index| bytes_of(fields[index]));
    let config = Config {
        variant: Variant::from_str(fields[0]).unwrap(),
        version: Version::from_str(fields[1]).unwrap(),
        time_cost: number(2),
        mem_cost: number(3),
        lanes: number(4),
        hash_length: number(5),
        thread_mode: ThreadMode::Parallel,
        secret: &secret,
        ad: &ad,
    };
    let (tag, text) = (run.hash_raw(&pwd, &salt, &config), run.hash_encoded(&pwd, &salt, &config));
    let (tag, text) = match (tag, text) {
        (Ok(tag), Ok(text)) => (tag, text),
        (tag, text) => {
            let errors = [tag.unwrap_err(), text.unwrap_err()];
            return assert!(errors.iter().all(|error| answer_of(error) == fields[10]), "{line}");
        }
    };
    assert_eq!(tag, bytes_of(fields[10]), "{line}");
    let limits = Limits { lanes: u32::MAX, mem_cost: u32::MAX, time_cost: u32::MAX, work: u64::MAX };
    for used in [secret.clone(), [&secret[..], b"x"].concat()] {
        let is_right = used == secret;
        let other = Config { secret: &used, ..config };
        assert_eq!(run.verify_raw(&pwd, &salt, &tag, &other), Ok(is_right), "{line}");
        assert_eq!(run.verify_encoded(&text, &pwd, &used, &ad), Ok(is_right), "{line}");
        assert_eq!(run.verify_encoded_within(&text, &pwd, &used, &ad, &limits), Ok(is_right), "{line}");
    }
}

#[test]
fn each_line_has_its_tag_or_error() {
    lines().iter().for_each(|line| check(&mut Run::new(), line));
}

#[test]
fn each_line_has_its_tag_or_error_over_one_memory_whose_size_changes() {
    let mut memory = Memory::new();
    let mut run = Run::new().over(&mut memory);
    lines().iter().for_each(|line| check(&mut run, line));
}

#[test]
fn each_text_verifies_as_in_the_vectors() {
    let mut memory = Memory::new();
    for line in TEXTS.lines() {
        let (text, answer) = line.split_once('\t').unwrap();
        let mut run = Run::new().over(&mut memory);
        let verdicts = [verify_encoded(text, b"password"), run.verify_encoded(text, b"password", &[], &[])];
        for verdict in verdicts {
            let said = verdict.map_or_else(|error| answer_of(&error), |is_match| is_match.to_string());
            assert_eq!(said, answer, "{text}");
        }
        let (invalid, is_invalid) = (Some(Error::DecodingFail), answer == answer_of(&Error::DecodingFail));
        let errors = [read(text).err(), needs_rehash(text, &Config::default()).err()];
        assert_eq!(errors.map(|error| error == invalid), [is_invalid; 2], "{text}");
    }
    assert_eq!(TEXTS.lines().count(), 147);
}
