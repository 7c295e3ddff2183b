//! The digest SHA-256.

/// As theirs.
pub trait Digest {
    /// As theirs.
    fn new() -> Self;

    /// As theirs.
    fn update<T: AsRef<[u8]>>(&mut self, data: T);

    /// As theirs.
    fn finalize(self) -> [u8; 32];
}

/// As theirs.
#[derive(Debug)]
pub struct Sha256 {
    inner: ::sha2::Sha256,
}

impl Digest for Sha256 {
    fn new() -> Sha256 {
        Sha256 { inner: ::sha2::Digest::new() }
    }

    fn update<T: AsRef<[u8]>>(&mut self, data: T) {
        ::sha2::Digest::update(&mut self.inner, data);
    }

    fn finalize(self) -> [u8; 32] {
        ::sha2::Digest::finalize(self.inner).into()
    }
}
