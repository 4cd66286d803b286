//! The hash behind every printed sum of bytes.

/// The 64-bit FNV-1a hash of bytes that come piece by piece.
#[derive(Clone, Copy)]
pub struct Fnv1a {
    state: u64,
}

impl Fnv1a {
    const BASIS: u64 = 0xcbf29ce484222325;
    const PRIME: u64 = 0x100000001b3;

    /// The hash of no byte.
    pub fn new() -> Self {
        Fnv1a { state: Self::BASIS }
    }

    /// Takes in the next bytes.
    pub fn add(&mut self, bytes: &[u8]) {
        self.state = bytes.iter().fold(self.state, |state, &byte| {
            (state ^ u64::from(byte)).wrapping_mul(Self::PRIME)
        });
    }

    /// The hash of all bytes taken in so far.
    pub fn value(self) -> u64 {
        self.state
    }
}

/// The 64-bit FNV-1a hash.
pub fn fnv1a(bytes: &[u8]) -> u64 {
    let mut hash = Fnv1a::new();
    hash.add(bytes);
    hash.value()
}
