//! The file of who may call, in which tokens stand by their SHA-256 alone.
use super::limits::Limits;
use super::scopes::Scope;
use super::tokens::TokenHash;
use super::Bound;
use serde::{Deserialize, Serialize};
use std::collections::HashSet;
use std::fs::{File, OpenOptions, Permissions};
use std::io::{self, Read, Write};
use std::os::unix::fs::{MetadataExt, OpenOptionsExt, PermissionsExt};
use std::path::Path;
use thiserror::Error;

/// Who may call.
#[derive(Clone, Debug, Default, PartialEq, Eq, Serialize, Deserialize)]
#[serde(deny_unknown_fields)]
pub struct CallersFile {
    /// Each of them.
    #[serde(default, rename = "caller")]
    pub callers: Vec<Entry>,
}

/// One who may call: by its token, or by a name that its certificate has.
#[derive(Clone, Debug, PartialEq, Eq, Serialize, Deserialize)]
pub struct Entry {
    /// Its name, 1 to 64 letters, digits, `_`, `-` and `.`: the identity to which its calls' ids belong.
    pub name: String,
    /// The SHA-256 of its token.
    #[serde(skip_serializing_if = "Option::is_none")]
    pub token: Option<TokenHash>,
    /// A DNS name of its certificate.
    #[serde(skip_serializing_if = "Option::is_none")]
    pub certificate: Option<String>,
    /// What it may ask.
    pub scopes: Vec<Scope>,
    /// The user whose session this caller administers by.
    #[serde(skip_serializing_if = "Option::is_none")]
    pub user: Option<String>,
    /// That session.
    #[serde(skip_serializing_if = "Option::is_none")]
    pub session: Option<String>,
    /// How much it may ask in a second.
    #[serde(flatten)]
    pub limits: Limits,
}

impl Entry {
    pub(super) fn bound(&self) -> Option<Bound> {
        let (user, session) = self.user.clone().zip(self.session.clone())?;
        Some(Bound { user, session })
    }

    /// What is wrong with it.
    fn fault(&self) -> Option<&'static str> {
        let is_part = |byte: u8| byte.is_ascii_alphanumeric() || b"_-.".contains(&byte);
        let is_name = (1..=64).contains(&self.name.len()) && self.name.bytes().all(is_part);
        let is_dns = |name: &String| webpki::DnsNameRef::try_from_ascii_str(name).is_ok();
        match () {
            () if !is_name => Some("its name is not 1 to 64 letters, digits, _, - and ."),
            () if self.token.is_some() == self.certificate.is_some() => {
                Some("it has either a token or a certificate")
            }
            () if !self.certificate.as_ref().is_none_or(is_dns) => {
                Some("its certificate is no DNS name")
            }
            () if self.user.is_some() != self.session.is_some() => {
                Some("it has a user and a session, or neither")
            }
            () => None,
        }
    }
}

/// Why a file tells nobody.
#[derive(Debug, Error)]
pub enum CallersFault {
    /// It can't be read or written.
    #[error(transparent)]
    File(#[from] io::Error),
    /// Others than its owner may read or write it.
    #[error("others than its owner can read or write it: chmod 600")]
    Open,
    /// It is not what it has to be.
    #[error("{0}")]
    Text(String),
    /// What is wrong with a caller.
    #[error("caller {0}: {1}")]
    Caller(String, String),
}

impl CallersFile {
    /// Reads a file.
    ///
    /// # Errors
    /// Where it can't be read, others may read it, or a caller of it is none.
    pub fn read(path: &Path) -> Result<CallersFile, CallersFault> {
        let mut file = File::open(path)?;
        if file.metadata()?.mode() & 0o077 != 0 {
            return Err(CallersFault::Open);
        }
        let mut text = String::new();
        file.read_to_string(&mut text)?;
        // What is wrong is told by its line and column alone: a line may have a token that somebody wrote there.
        let read: Result<CallersFile, toml::de::Error> = toml::from_str(&text);
        let file = read.map_err(|error| match error.line_col() {
            Some((line, column)) => {
                let (line, column) = (line + 1, column + 1);
                CallersFault::Text(format!("line {line}, column {column}: it is no such file"))
            }
            None => CallersFault::Text("it is no such file".to_owned()),
        })?;
        file.check()?;
        Ok(file)
    }

    /// Reads a file, of which there may be none yet.
    ///
    /// # Errors
    /// As [`CallersFile::read`].
    pub fn read_if_there(path: &Path) -> Result<CallersFile, CallersFault> {
        match CallersFile::read(path) {
            Err(CallersFault::File(error)) if error.kind() == io::ErrorKind::NotFound => {
                Ok(CallersFile::default())
            }
            read => read,
        }
    }

    fn check(&self) -> Result<(), CallersFault> {
        let (mut names, mut known) = (HashSet::new(), HashSet::new());
        for entry in &self.callers {
            let key = format!("{:?}", (entry.certificate.as_deref(), hash_of(entry)));
            let fault = match entry.fault() {
                None if !names.insert(&entry.name) => Some("there are two of this name"),
                None if !known.insert(key) => Some("another has its token or certificate"),
                fault => fault,
            };
            if let Some(fault) = fault {
                return Err(CallersFault::Caller(entry.name.clone(), fault.to_owned()));
            }
        }
        Ok(())
    }

    /// Takes a caller out. Tells whether there was one of this name.
    pub fn remove(&mut self, name: &str) -> bool {
        let before = self.callers.len();
        self.callers.retain(|caller| caller.name != name);
        self.callers.len() < before
    }

    /// Writes the file anew, all of it or nothing, for its owner alone.
    ///
    /// # Errors
    /// Where a caller of it is none, or it can't be written.
    pub fn write(&self, path: &Path) -> Result<(), CallersFault> {
        self.check()?;
        let text = toml::to_string(self).map_err(|error| CallersFault::Text(error.to_string()))?;
        let new = path.with_extension(format!("{}.new", std::process::id()));
        let mut options = OpenOptions::new();
        let mut file = options
            .write(true)
            .create_new(true)
            .mode(0o600)
            .open(&new)?;
        file.set_permissions(Permissions::from_mode(0o600))?;
        file.write_all(text.as_bytes())?;
        file.sync_all()?;
        Ok(std::fs::rename(&new, path)?)
    }
}

fn hash_of(entry: &Entry) -> Option<String> {
    let hash = entry.token.as_ref()?;
    serde_json::to_string(hash).ok()
}

#[cfg(test)]
mod tests {
    use super::{CallersFault, CallersFile, Entry};
    use crate::access::{new_token, Limits, Scope, TokenHash};
    use std::fs::{set_permissions, write, Permissions};
    use std::os::unix::fs::PermissionsExt;

    fn entry(name: &str) -> Entry {
        Entry {
            name: name.to_owned(),
            token: Some(TokenHash::of(&new_token().unwrap())),
            certificate: None,
            scopes: vec![Scope::Check],
            user: None,
            session: None,
            limits: Limits {
                calls: Some(7),
                ..Limits::default()
            },
        }
    }

    #[test]
    fn what_is_written_is_read_and_is_its_owners_alone() {
        let folder = tempfile::tempdir().unwrap();
        let path = folder.path().join("callers.toml");
        let mut bound = entry("ward-1");
        (bound.user, bound.session) = (Some("ann".to_owned()), Some("s1".to_owned()));
        let callers = vec![entry("clinic"), bound];
        let file = CallersFile { callers };
        file.write(&path).unwrap();
        assert_eq!(CallersFile::read(&path).unwrap(), file);
        for mode in [0o640, 0o604, 0o620] {
            set_permissions(&path, Permissions::from_mode(mode)).unwrap();
            let told = CallersFile::read(&path);
            assert!(matches!(told, Err(CallersFault::Open)), "{mode:o}");
        }
    }

    #[test]
    fn a_caller_that_is_none_is_refused() {
        let mut both = entry("a");
        both.certificate = Some("a.example".to_owned());
        let mut neither = entry("a");
        neither.token = None;
        let mut half = entry("a");
        half.user = Some("ann".to_owned());
        let mut no_host = entry("a");
        (no_host.token, no_host.certificate) = (None, Some("no host".to_owned()));
        let twice = entry("a");
        let mut same_token = twice.clone();
        same_token.name = "b".to_owned();
        let refused = [
            vec![entry("")],
            vec![entry("uid 0")],
            vec![both],
            vec![neither],
            vec![half],
            vec![no_host],
            vec![entry("a"), entry("a")],
            vec![twice, same_token],
        ];
        for callers in refused {
            let file = CallersFile { callers };
            assert!(file.check().is_err(), "{file:?}");
        }
    }

    #[test]
    fn what_is_wrong_with_a_file_is_told_without_its_text() {
        let folder = tempfile::tempdir().unwrap();
        let path = folder.path().join("callers.toml");
        let token = new_token().unwrap();
        let texts = [
            format!("[[caller]]\nname = \"a\"\ntoken = \"{token}0\"\nscopes = []\n"),
            format!("[[caller]]\nname = \"a\"\nscopes = [\"{token}\"]\n"),
            format!("[[caller]]\n{token} = 1\n = {token}"),
        ];
        for text in texts {
            write(&path, text).unwrap();
            set_permissions(&path, Permissions::from_mode(0o600)).unwrap();
            let told = CallersFile::read(&path).unwrap_err().to_string();
            assert!(!told.contains(&token[..8]), "{told}");
        }
    }
}
