//! The product's calls below the link, one subject a file.

pub mod aes;
pub mod ciphers;
pub mod milenage;
pub mod octets;
pub mod pair;
pub mod rounds;
