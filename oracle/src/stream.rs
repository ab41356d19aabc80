//! A whole stream: the given detector, and around it what the Rust lacks (the
//! count of bytes, replies instead of a stop of the program, the leader).

use crate::lent::SINGLE;
use crate::order::{LIMIT, PLACES};
use crate::sheet;
use crate::{
    BeforeNonAscii, Candidate, EncodingDetector, InnerCandidate, Iso2022JpDetection,
    ShiftJisCandidate,
};

/// The places of Hebrew in logical and in visual order.
const LOGICAL: usize = 5;
const VISUAL: usize = 6;

pub struct Stream {
    pub detector: EncodingDetector,
    pub bytes: u64,
}

/// All places take part.
pub const EVERY: u16 = (1 << PLACES) - 1;

/// Whether a start asks for a place that there is not.
pub fn refused(bits: u16) -> bool {
    bits > EVERY
}

fn new_shift_jis() -> Candidate {
    Candidate { inner: InnerCandidate::Shift(ShiftJisCandidate::new()), score: Some(0) }
}

impl Stream {
    /// Bit k says whether place k takes part; no place does if a bit above
    /// the last place's is set.
    pub fn start(bits: u16) -> Self {
        let taken = |place: u8| bits >> place & 1 == 1 && !refused(bits);
        let japanese = match taken(1) {
            true => Iso2022JpDetection::Allow,
            false => Iso2022JpDetection::Deny,
        };
        let mut candidates = [
            Candidate::new_utf_8(),
            Candidate::new_iso_2022_jp(japanese),
            Candidate::new_euc_kr(),
            Candidate::new_big5(),
            Candidate::new_caseless(&SINGLE[0]),
            Candidate::new_logical(&SINGLE[1]),
            Candidate::new_visual(&SINGLE[2]),
            Candidate::new_arabic_french(&SINGLE[3]),
            new_shift_jis(),
        ];
        for place in (0..PLACES).filter(|&place| !taken(place)) {
            candidates[usize::from(place)].score = None;
        }
        let detector = EncodingDetector {
            candidates,
            non_ascii_seen: 0,
            last_before_non_ascii: BeforeNonAscii::None,
            esc_seen: false,
            closed: false,
        };
        Stream { detector, bytes: 0 }
    }

    /// The reply's number and its flag.
    pub fn feed(&mut self, chunk: &[u8], last: bool) -> (u8, bool) {
        let flag = self.detector.non_ascii_seen != 0;
        if self.detector.closed {
            return (1, flag);
        }
        if self.bytes + chunk.len() as u64 > LIMIT {
            return (3, flag);
        }
        self.bytes += chunk.len() as u64;
        (0, self.detector.feed(chunk, last))
    }

    /// The leader's name. The first place of those with the greatest score
    /// leads; between the two orders of Hebrew their punctuation settles it.
    pub fn leader(&self) -> &'static str {
        if self.detector.non_ascii_seen == 0 && !self.detector.esc_seen {
            return "ascii";
        }
        let scores = self.detector.candidates.each_ref().map(|candidate| candidate.score);
        let most = scores.iter().flatten().max();
        let first = most.and_then(|most| scores.iter().position(|&score| score == Some(*most)));
        first.map_or("none", |first| sheet::NAMES[self.settled(first)])
    }

    /// Where both orders of Hebrew have scores and `first` is one of them, the
    /// one with more plausible punctuation, and the logical one of equals; else
    /// `first`. This rule is our own.
    fn settled(&self, first: usize) -> usize {
        let [logical, visual] = [LOGICAL, VISUAL].map(|place| &self.detector.candidates[place]);
        if ![LOGICAL, VISUAL].contains(&first) || logical.score.is_none() || visual.score.is_none()
        {
            return first;
        }
        match visual.plausible_punctuation() > logical.plausible_punctuation() {
            true => VISUAL,
            false => LOGICAL,
        }
    }
}
