//! A digest that a small language can compute: no product exceeds 64 bits.

use std::fmt;
use std::io::Read;

pub struct Digest {
    first: u64,
    second: u64,
    length: u64,
}

impl Digest {
    pub fn new() -> Digest {
        Digest { first: 1, second: 1, length: 0 }
    }

    pub fn add(&mut self, bytes: &[u8]) {
        for &byte in bytes {
            let added = u64::from(byte) + 1;
            self.first = (self.first * 65_599 + added) % 2_147_483_647;
            self.second = (self.second * 31_337 + added) % 2_147_483_629;
        }
        self.length += bytes.len() as u64;
    }
}

impl fmt::Display for Digest {
    fn fmt(&self, to: &mut fmt::Formatter) -> fmt::Result {
        write!(to, "{} {} {}", self.first, self.second, self.length)
    }
}

pub fn run(mut input: impl Read) -> std::io::Result<Digest> {
    let mut digest = Digest::new();
    let mut buffer = vec![0; 1 << 16];
    loop {
        let read = input.read(&mut buffer)?;
        if read == 0 {
            return Ok(digest);
        }
        digest.add(&buffer[..read]);
    }
}
