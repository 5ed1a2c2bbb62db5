use std::fmt;

/// The library's number for a string with a byte above 127. Such a string is no encoded hash.
const NOT_ASCII: u32 = 66;

/// What a fallible call returns.
pub type Result<T> = std::result::Result<T, Error>;

/// Defines the errors: first those of the library, with their numbers, and then those of this crate.
macro_rules! errors {
    (
        of_the_library { $($(#[$documented:meta])* $name:ident = $number:literal, $text:literal;)* }
        of_this_crate { $($(#[$documented_here:meta])* $name_here:ident, $text_here:literal;)* }
    ) => {
        /// Why a call failed. Later versions may have more errors.
        #[derive(Clone, Debug, PartialEq)]
        #[non_exhaustive]
        #[cfg_attr(feature = "serde", derive(serde::Serialize, serde::Deserialize))]
        #[cfg_attr(feature = "serde", serde(rename_all = "snake_case"))]
        pub enum Error {
            $($(#[$documented])* $name,)*
            $($(#[$documented_here])* $name_here,)*

            /// The library returned a number that this version of the crate does not know.
            Unknown(u32),
        }

        impl Error {
            /// The error with this number in the library.
            pub(crate) fn of_number(number: u32) -> Error {
                match number {
                    $($number => Error::$name,)*
                    NOT_ASCII => Error::DecodingFail,
                    _ => Error::Unknown(number),
                }
            }
        }

        impl fmt::Display for Error {
            fn fmt(&self, f: &mut fmt::Formatter<'_>) -> fmt::Result {
                match self {
                    $(Error::$name => f.write_str($text),)*
                    $(Error::$name_here => f.write_str($text_here),)*
                    Error::Unknown(number) => write!(f, "The library returned the unknown error {number}"),
                }
            }
        }
    };
}

errors! {
    of_the_library {
        /// The hash is shorter than 4 bytes.
        OutputTooShort = 1, "Output is too short";

        /// The hash is longer than 2^32 - 1 bytes.
        OutputTooLong = 2, "Output is too long";

        /// Never returned: no password is too short.
        PwdTooShort = 3, "Password is too short";

        /// The password is longer than 2^32 - 1 bytes.
        PwdTooLong = 4, "Password is too long";

        /// The salt is shorter than 8 bytes.
        SaltTooShort = 5, "Salt is too short";

        /// The salt is longer than 2^32 - 1 bytes.
        SaltTooLong = 6, "Salt is too long";

        /// Never returned: no associated data is too short.
        AdTooShort = 7, "Associated data is too short";

        /// The associated data is longer than 2^32 - 1 bytes.
        AdTooLong = 8, "Associated data is too long";

        /// Never returned: no secret is too short.
        SecretTooShort = 9, "Secret is too short";

        /// The secret is longer than 2^32 - 1 bytes.
        SecretTooLong = 10, "Secret is too long";

        /// The number of passes is 0.
        TimeTooSmall = 11, "Time cost is too small";

        /// Never returned: no number of passes is too large.
        TimeTooLarge = 12, "Time cost is too large";

        /// There are fewer than 8 KiB for each lane.
        MemoryTooLittle = 13, "Memory cost is too small";

        /// Never returned: no memory is too much.
        MemoryTooMuch = 14, "Memory cost is too large";

        /// There is no lane.
        LanesTooFew = 15, "Too few lanes";

        /// There are more than 2^24 - 1 lanes.
        LanesTooMany = 16, "Too many lanes";

        /// No variant has this number.
        IncorrectType = 17, "There is no such type of Argon2";

        /// No version has this number.
        IncorrectVersion = 18, "There is no such version of Argon2";

        /// The string is not an encoded hash.
        DecodingFail = 19, "Decoding failed";

        /// The system denied memory.
        OutOfMemory = 20, "Out of memory";

        /// Never returned here: if the system denies a thread, other threads do its work.
        WorkerRefused = 21, "A worker was refused";

        /// The system returned no random bytes for a salt.
        NoRandomBytes = 129, "There are no random bytes";

        /// The progress callback of a [`Run`](crate::Run) stopped the call.
        Stopped = 130, "The hash was stopped";

        /// The library has no build for a processor as old as this one.
        OldProcessor = 131, "The processor is too old";
    }

    of_this_crate {
        /// No key of the [`Peppers`](crate::Peppers) has this ID, or a hash without a pepper is not accepted.
        UnknownPepper, "There is no pepper with this ID";

        /// [`Peppers::new`](crate::Peppers::new) got no keys, an empty key, or two keys with the same ID.
        InvalidPeppers, "There are no peppers, one is empty, or two have the same ID";
    }
}

impl std::error::Error for Error {}

#[cfg(test)]
mod tests {
    use super::{Error, NOT_ASCII};
    use crate::ffi::{message, TOO_COSTLY};
    use crate::Unverified;

    /// Numbers that this crate's calls never return, or return as something other than an error.
    const OF_OTHER_CALLS: [u32; 11] = [0, 64, 65, NOT_ASCII, 68, 69, 70, 71, 72, 128, 132];

    #[test]
    fn every_number_of_the_library_is_an_error_with_the_library_s_message_or_unknown() {
        let unknown = message(u32::MAX);
        for number in (0..1000).chain([u32::MAX]).filter(|number| *number != NOT_ASCII) {
            let error = Error::of_number(number);
            let is_known = message(number) != unknown && !OF_OTHER_CALLS.contains(&number);
            assert_eq!(error != Error::Unknown(number), is_known, "{number}");
            let expected = format!("The library returned the unknown error {number}");
            assert_eq!(error.to_string(), if is_known { message(number) } else { expected });
        }
        assert_eq!(Error::of_number(NOT_ASCII), Error::DecodingFail);
        assert_eq!(message(TOO_COSTLY), Unverified::TooCostly.to_string());
    }
}
