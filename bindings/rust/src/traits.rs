//! The traits of the crate `password-hash`, for programs that were written for RustCrypto's `argon2`.

use crate::run::require_done;
use crate::{ffi, Config, Error, Limits, Run, ThreadMode, Variant, Version};
use password_hash::{
    Decimal, Encoding, Error as HashError, Ident, Output, ParamsString, PasswordHash, PasswordHasher, Result, Salt,
};

/// The most bytes of a salt in a string of the crate `password-hash`.
const MOST_OF_A_SALT: usize = 64;

/// The most threads that verify an encoded hash, however many lanes it has (`PROVED_ARGON2_MAX_VERIFYING_THREADS`).
const MOST_THREADS: u32 = 16;

/// The memory in KiB, the passes, the lanes and the length of the hash. `Params::default()` stands for those of the
/// hasher.
#[derive(Clone, Copy, Debug, Default, Eq, PartialEq)]
pub struct Params(Option<Config<'static>>);

/// The first settings, with the costs of the second.
fn with_costs<'a>(config: &Config<'a>, costs: &Config<'_>) -> Config<'a> {
    let Config { mem_cost, time_cost, lanes, hash_length, .. } = *costs;
    Config { mem_cost, time_cost, lanes, hash_length, ..*config }
}

impl Params {
    /// These settings, with a hash of 32 bytes unless a length is given.
    ///
    /// # Errors
    ///
    /// The first parameter error.
    pub fn new(m_cost: u32, t_cost: u32, p_cost: u32, output_len: Option<usize>) -> crate::Result<Params> {
        let default = Config::default();
        let length = output_len.map_or(Ok(default.hash_length), u32::try_from);
        let hash_length = length.map_err(|_| Error::OutputTooLong)?;
        let costs = Config { mem_cost: m_cost, time_cost: t_cost, lanes: p_cost, hash_length, ..default };
        require_done(ffi::check(&[], &[0; 8], &costs))?;
        Ok(Params(Some(costs)))
    }

    fn of(config: &Config<'_>) -> Params {
        Params(Some(with_costs(&Config::default(), config)))
    }

    fn costs(&self) -> Config<'static> {
        self.0.unwrap_or_default()
    }

    /// The memory in KiB.
    #[must_use]
    pub fn m_cost(&self) -> u32 {
        self.costs().mem_cost
    }

    /// The passes.
    #[must_use]
    pub fn t_cost(&self) -> u32 {
        self.costs().time_cost
    }

    /// The lanes.
    #[must_use]
    pub fn p_cost(&self) -> u32 {
        self.costs().lanes
    }
}

/// The settings that a stored hash names. Verifying reads them so: a stored hash without a version is of version 0x10.
impl TryFrom<&PasswordHash<'_>> for Params {
    type Error = HashError;

    fn try_from(hash: &PasswordHash<'_>) -> Result<Params> {
        if hash.params.iter().any(|(name, _)| !["m", "t", "p"].contains(&name.as_str())) {
            return Err(HashError::ParamNameInvalid);
        }
        let cost = |name: &str| hash.params.get_decimal(name).ok_or(HashError::ParamNameInvalid);
        let length = hash.hash.map(|tag| tag.len());
        let costs = Params::new(cost("m")?, cost("t")?, cost("p")?, length)?.costs();
        let version = if hash.version.is_some() { costs.version } else { Version::Version10 };
        Ok(Params(Some(Config { version, ..costs })))
    }
}

impl TryFrom<Params> for ParamsString {
    type Error = HashError;

    fn try_from(params: Params) -> Result<ParamsString> {
        let mut string = ParamsString::new();
        string.add_decimal("m", params.m_cost())?;
        string.add_decimal("t", params.t_cost())?;
        string.add_decimal("p", params.p_cost())?;
        Ok(string)
    }
}

/// The traits' error for an error of this crate.
impl From<Error> for HashError {
    fn from(error: Error) -> HashError {
        match error {
            Error::IncorrectType => HashError::Algorithm,
            Error::IncorrectVersion => HashError::Version,
            _ => HashError::Crypto,
        }
    }
}

/// A hasher with settings, like the type of this name in RustCrypto's crate. By default the settings are
/// [`Config::default`].
///
/// It verifies stored hashes within [`Limits::at_least`] of those settings, and with at most 16 threads.
///
/// # Examples
///
/// ```
/// use proved_argon2 as argon2; // the lines below are as for RustCrypto's crate
/// use argon2::password_hash::{rand_core::OsRng, PasswordHash, PasswordHasher, PasswordVerifier, SaltString};
/// use argon2::Argon2;
///
/// let salt = SaltString::generate(&mut OsRng);
/// let stored = Argon2::default().hash_password(b"password", &salt)?.to_string();
/// let hash = PasswordHash::new(&stored)?;
/// assert!(Argon2::default().verify_password(b"password", &hash).is_ok());
/// assert!(Argon2::default().verify_password(b"Password", &hash).is_err());
/// # Ok::<(), argon2::password_hash::Error>(())
/// ```
#[derive(Clone, Copy, Debug, Default)]
pub struct Argon2<'key> {
    config: Config<'key>,
    params: Params,
}

impl<'key> Argon2<'key> {
    /// A hasher without a secret.
    #[must_use]
    pub fn new(algorithm: Variant, version: Version, params: Params) -> Argon2<'key> {
        Config { variant: algorithm, version, ..params.costs() }.into()
    }

    /// A hasher with a secret (pepper).
    ///
    /// # Errors
    ///
    /// [`Error::SecretTooLong`].
    pub fn new_with_secret(
        secret: &'key [u8],
        algorithm: Variant,
        version: Version,
        params: Params,
    ) -> crate::Result<Argon2<'key>> {
        let config = Config { secret, ..Argon2::new(algorithm, version, params).config };
        require_done(ffi::check(&[], &[0; 8], &config))?;
        Ok(config.into())
    }

    /// The settings.
    #[must_use]
    pub fn params(&self) -> &Params {
        &self.params
    }

    /// Fills `out` with a tag of its length.
    ///
    /// # Errors
    ///
    /// As [`hash_raw`](crate::hash_raw).
    pub fn hash_password_into(&self, pwd: &[u8], salt: &[u8], out: &mut [u8]) -> crate::Result<()> {
        Run::new().hash_raw_into(pwd, salt, &self.config, out)
    }

    /// The settings that a stored hash names, if they are within limits, with the threads that may verify it.
    fn config_of(&self, name: Ident<'_>, version: Option<Decimal>, params: Params) -> Result<Config<'key>> {
        let variant = Variant::from_str(name.as_str()).map_err(|_| HashError::Algorithm)?;
        let version = version.map_or(Ok(params.costs().version), Version::from_u32)?;
        let config = Config { variant, version, ..self.with(params) };
        let thread_mode = ThreadMode::AtMost(config.workers().min(MOST_THREADS));
        let config = Config { thread_mode, ..config };
        Limits::at_least(&self.config).allow(&config).then_some(config).ok_or(HashError::Crypto)
    }

    fn with(&self, params: Params) -> Config<'key> {
        params.0.map_or(self.config, |costs| with_costs(&self.config, &costs))
    }
}

/// A hasher with all settings of this crate, including the threads.
impl<'key> From<Config<'key>> for Argon2<'key> {
    fn from(config: Config<'key>) -> Argon2<'key> {
        Argon2 { config, params: Params::of(&config) }
    }
}

impl From<Params> for Argon2<'_> {
    fn from(params: Params) -> Self {
        Argon2::new(Variant::Argon2id, Version::default(), params)
    }
}

impl PasswordHasher for Argon2<'_> {
    type Params = Params;

    fn hash_password_customized<'a>(
        &self,
        password: &[u8],
        algorithm: Option<Ident<'a>>,
        version: Option<Decimal>,
        params: Params,
        salt: impl Into<Salt<'a>>,
    ) -> Result<PasswordHash<'a>> {
        let config = match algorithm {
            None => {
                Config { version: version.map_or(Ok(self.config.version), Version::from_u32)?, ..self.with(params) }
            }
            Some(name) => self.config_of(name, version, params)?,
        };
        let salt = salt.into();
        let mut buffer = [0; MOST_OF_A_SALT];
        let bytes = Encoding::B64.decode(salt.as_str(), &mut buffer)?;
        let length = config.hash_length as usize;
        let tag = Output::init_with(length, |out| Ok(Run::new().hash_raw_into(password, bytes, &config, out)?))?;
        Ok(PasswordHash {
            algorithm: Ident::try_from(config.variant.as_lowercase_str())?,
            version: Some(config.version.as_u32()),
            params: Params::of(&config).try_into()?,
            salt: Some(salt),
            hash: Some(tag),
        })
    }
}
