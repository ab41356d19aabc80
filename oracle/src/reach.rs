//! Which bytes of a chunk reach the places, and the place of each: document
//! 01's rules of the front end, written anew beside the Rust's.

pub struct Front {
    /// The last two bytes of the head as they are saved, or fewer.
    pub context: Vec<u8>,
    /// Whether the trigger was met.
    pub met: bool,
    /// The bytes from the trigger on.
    pub body: u64,
}

pub struct Reached {
    bytes: Vec<u8>,
    /// How many of them, the first, are of the head.
    head: usize,
    /// The bytes from the trigger on that came in earlier chunks.
    earlier: u64,
}

impl Reached {
    /// The bytes with their places, 0 for those of the head.
    pub fn with_places(&self) -> impl Iterator<Item = (u8, u64)> + '_ {
        let at = |number: usize| match number < self.head {
            true => 0,
            false => self.earlier + (number - self.head) as u64 + 1,
        };
        self.bytes.iter().enumerate().map(move |(number, &byte)| (byte, at(number)))
    }

    pub fn non_ascii(&self) -> u64 {
        self.bytes.iter().filter(|&&byte| byte >= 0x80).count() as u64
    }
}

impl Front {
    pub fn new() -> Self {
        Front { context: vec![], met: false, body: 0 }
    }

    /// Takes a chunk; `None` if no place is fed.
    pub fn reach(&mut self, chunk: &[u8]) -> Option<Reached> {
        if self.met {
            let earlier = self.body;
            self.body += chunk.len() as u64;
            return Some(Reached { bytes: chunk.to_vec(), head: 0, earlier });
        }
        let Some(offset) = chunk.iter().position(|&byte| byte == 0x1B || byte >= 0x80) else {
            self.save(chunk);
            return None;
        };
        self.met = true;
        self.body = (chunk.len() - offset) as u64;
        let bytes = match offset {
            0 | 1 => [&std::mem::take(&mut self.context), chunk].concat(),
            _ => chunk[offset - 2..].to_vec(),
        };
        let head = bytes.len() - (chunk.len() - offset);
        Some(Reached { bytes, head, earlier: 0 })
    }

    fn save(&mut self, chunk: &[u8]) {
        self.context.extend(&chunk[chunk.len().saturating_sub(2)..]);
        self.context.drain(..self.context.len().saturating_sub(2));
    }
}
