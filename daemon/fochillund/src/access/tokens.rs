//! Bearer tokens: 256 random bits, of which only the SHA-256 is kept.
use ring::digest::{digest, SHA256};
use ring::error::Unspecified;
use ring::rand::{SecureRandom, SystemRandom};
use serde::{Deserialize, Deserializer, Serialize, Serializer};
use std::fmt;
use subtle::ConstantTimeEq;

/// The SHA-256 of a token.
#[derive(Clone, Copy, PartialEq, Eq)]
pub struct TokenHash([u8; 32]);

impl TokenHash {
    /// Of this token.
    pub fn of(token: &str) -> TokenHash {
        let digest = digest(&SHA256, token.as_bytes());
        TokenHash(digest.as_ref().try_into().expect("32 bytes"))
    }

    /// Whether it is this one, in a time that does not tell how far they agree.
    pub fn is(&self, other: &TokenHash) -> bool {
        self.0.ct_eq(&other.0).into()
    }
}

/// A new token.
///
/// # Errors
/// Where the machine has no random bits.
pub fn new_token() -> Result<String, Unspecified> {
    let mut bits = [0; 32];
    SystemRandom::new().fill(&mut bits)?;
    Ok(hex::encode(bits))
}

impl fmt::Debug for TokenHash {
    fn fmt(&self, f: &mut fmt::Formatter<'_>) -> fmt::Result {
        f.write_str("TokenHash")
    }
}

impl Serialize for TokenHash {
    fn serialize<S: Serializer>(&self, serializer: S) -> Result<S::Ok, S::Error> {
        hex::encode(self.0).serialize(serializer)
    }
}

impl<'de> Deserialize<'de> for TokenHash {
    fn deserialize<D: Deserializer<'de>>(deserializer: D) -> Result<TokenHash, D::Error> {
        let text = String::deserialize(deserializer)?;
        let mut hash = [0; 32];
        hex::decode_to_slice(&text, &mut hash)
            .map_err(|_| serde::de::Error::custom("a token's SHA-256 has 64 digits"))?;
        Ok(TokenHash(hash))
    }
}

#[cfg(test)]
mod tests {
    use super::{new_token, TokenHash};

    #[test]
    fn a_token_is_known_by_its_hash() {
        let (one, two) = (new_token().unwrap(), new_token().unwrap());
        assert_eq!((one.len(), one == two), (64, false));
        let hash = TokenHash::of(&one);
        assert!(hash.is(&TokenHash::of(&one)) && !hash.is(&TokenHash::of(&two)));
        assert!(!format!("{hash:?}").contains(char::is_numeric));
        let told = serde_json::to_string(&TokenHash::of("abc")).unwrap();
        // The SHA-256 of "abc", as FIPS 180-2 has it.
        let known = "ba7816bf8f01cfea414140de5dae2223b00361a396177a9cb410ff61f20015ad";
        assert_eq!(told, format!("\"{known}\""));
    }
}
