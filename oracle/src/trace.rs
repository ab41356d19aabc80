//! A whole stream with what the Rust does not say: why and by which byte each
//! place without a score has dropped out. The Rust's own detector takes each
//! chunk; of a place that it has then disqualified, the candidate is made anew
//! from the record before the chunk and fed byte by byte.

use crate::alone;
use crate::order::PLACES;
use crate::reach::{Front, Reached};
use crate::reason::Reason;
use crate::record::Record;
use crate::sheet;
use crate::stream::Stream;

pub struct Trace {
    stream: Stream,
    front: Front,
    /// What the places hold.
    pub places: [Record; PLACES as usize],
}

impl Trace {
    /// As `Stream::start`.
    pub fn start(bits: u16) -> Self {
        let stream = Stream::start(bits);
        let record = |place: usize| {
            let none = Record::none(Reason::NotInSlate, 0);
            Record::of(&stream.detector.candidates[place]).unwrap_or(none)
        };
        let places = std::array::from_fn(record);
        Trace { stream, front: Front::new(), places }
    }

    /// The reply's number and its flag.
    pub fn feed(&mut self, chunk: &[u8], last: bool) -> (u8, bool) {
        let before = self.stream.detector.non_ascii_seen;
        let (number, flag) = self.stream.feed(chunk, last);
        if number == 0 {
            let reached = self.front.reach(chunk);
            let counted = reached.as_ref().map_or(0, Reached::non_ascii);
            self.agrees(before + counted);
            if let Some(reached) = reached {
                self.fed(&reached, last);
            }
        }
        (number, flag)
    }

    /// What the Rust's detector shows of what it fed is what was worked out.
    fn agrees(&self, non_ascii: u64) {
        let detector = &self.stream.detector;
        assert_eq!(detector.last_before_non_ascii.as_slice(), self.front.context);
        assert_eq!(detector.non_ascii_seen, non_ascii);
        assert_eq!(detector.esc_seen || non_ascii != 0, self.front.met);
    }

    fn fed(&mut self, reached: &Reached, last: bool) {
        let close = last.then_some(self.front.body);
        let candidates = &self.stream.detector.candidates;
        for (place, (held, candidate)) in self.places.iter_mut().zip(candidates).enumerate() {
            if held.live {
                *held = Record::of(candidate).unwrap_or_else(|| {
                    let told = alone::end(place as u8, held, reached.with_places(), close);
                    assert!(!told.live, "place {place} lives when fed byte by byte");
                    told
                });
            }
        }
    }

    /// The eleven lines of the replay format's `Q`.
    pub fn show(&self) -> String {
        let mut text = self.front_line();
        for (place, record) in self.places.iter().enumerate() {
            text += &sheet::line(place as u8, record);
        }
        text + &format!("leader {}\n", self.stream.leader())
    }

    fn front_line(&self) -> String {
        let detector = &self.stream.detector;
        let context: String = match detector.last_before_non_ascii.as_slice() {
            [] => "-".into(),
            bytes => bytes.iter().map(|byte| format!("{byte:02x}")).collect(),
        };
        format!(
            "front context={context} esc={} nonascii={} closed={} bytes={} body={}\n",
            detector.esc_seen as u8,
            detector.non_ascii_seen,
            detector.closed as u8,
            self.stream.bytes,
            self.front.body
        )
    }
}
