//! What is taken from the given text, and every change made to it.

/// `cfg_if!`s in the given text: the candidate's alignment, `count_non_ascii`
/// and `feed_impl`. The last branch of each is the one with neither threads
/// nor SSE2.
pub const BRANCHES: usize = 3;

pub enum Piece {
    /// One item.
    Whole(&'static str),
    /// An item that only the text as given asks for.
    WholeAsGiven(&'static str),
    /// Some members of one `impl`.
    Members(&'static str, &'static [&'static str]),
}

use Piece::{Members, Whole, WholeAsGiven};

pub const PIECES: &[Piece] = &[
    Whole("const LATIN_LETTER"),
    Whole("fn contains_upper_case_period_or_non_ascii"),
    Whole("enum LatinCaseState"),
    Whole("struct ArabicFrenchCandidate"),
    Whole("impl ArabicFrenchCandidate"),
    Whole("struct CaselessCandidate"),
    Whole("impl CaselessCandidate"),
    Whole("fn is_ascii_punctuation"),
    Whole("struct LogicalCandidate"),
    Whole("impl LogicalCandidate"),
    Whole("struct VisualCandidate"),
    Whole("impl VisualCandidate"),
    Whole("struct Utf8Candidate"),
    Whole("impl Utf8Candidate"),
    Whole("struct Iso2022Candidate"),
    Whole("impl Iso2022Candidate"),
    Whole("enum LatinCj"),
    Whole("enum LatinKorean"),
    Whole("fn problematic_lead"),
    WholeAsGiven("fn more_problematic_lead"),
    Whole("struct Big5Candidate"),
    Whole("impl Big5Candidate"),
    Whole("struct EucKrCandidate"),
    Whole("impl EucKrCandidate"),
    Whole("enum InnerCandidate"),
    Whole("impl InnerCandidate"),
    Whole("struct Candidate"),
    Members("impl Candidate", CANDIDATE_MEMBERS),
    Whole("fn count_non_ascii"),
    Whole("enum BeforeNonAscii"),
    Whole("impl BeforeNonAscii"),
    Whole("enum Iso2022JpDetection"),
    Whole("struct EncodingDetector"),
    Members("impl EncodingDetector", &["fn feed_impl", "fn feed"]),
];

const CANDIDATE_MEMBERS: &[&str] = &[
    "fn feed",
    "fn new_caseless",
    "fn new_arabic_french",
    "fn new_logical",
    "fn new_visual",
    "fn new_utf_8",
    "fn new_iso_2022_jp",
    "fn new_euc_kr",
    "fn new_big5",
    "fn plausible_punctuation",
];

pub enum How {
    /// Put this in the pattern's place; nothing if empty.
    Replace(&'static str),
    /// The pattern begins a match arm: drop the whole arm.
    DropArm,
}

pub struct Edit {
    pub item: &'static str,
    pub pattern: &'static str,
    pub how: How,
    /// How often the pattern must stand in the item.
    pub times: usize,
    pub why: &'static str,
    /// Changes what the given text answers; left out by `--as-given`.
    pub departs: bool,
}

const fn weight(
    item: &'static str,
    pattern: &'static str,
    new: &'static str,
    times: usize,
) -> Edit {
    let how = How::Replace(new);
    Edit { item, pattern, how, times, why: "the lent weight", departs: false }
}

const fn variant(pattern: &'static str) -> Edit {
    let (item, how) = ("enum InnerCandidate", How::Replace(""));
    Edit { item, pattern, how, times: 1, why: "a kind not taken", departs: false }
}

const fn arm(pattern: &'static str) -> Edit {
    let item = "impl InnerCandidate";
    Edit { item, pattern, how: How::DropArm, times: 1, why: "a kind not taken", departs: false }
}

const ARABIC_FRENCH: &str = "impl ArabicFrenchCandidate";
const BIG5: &str = "impl Big5Candidate";
const EUC_KR: &str = "impl EucKrCandidate";

/// A weight's number is its place in document 01's list.
pub const EDITS: &[Edit] = &[
    weight(ARABIC_FRENCH, "IMPLAUSIBLE_LATIN_CASE_TRANSITION_PENALTY", "weight(0)", 2),
    weight(ARABIC_FRENCH, "LATIN_ADJACENCY_PENALTY", "weight(1)", 2),
    weight("impl CaselessCandidate", "LATIN_ADJACENCY_PENALTY", "weight(1)", 2),
    weight("impl LogicalCandidate", "LATIN_ADJACENCY_PENALTY", "weight(1)", 2),
    weight("impl VisualCandidate", "LATIN_ADJACENCY_PENALTY", "weight(1)", 2),
    weight(BIG5, "CJK_LATIN_ADJACENCY_PENALTY", "weight(2)", 4),
    weight(BIG5, "CJ_PUNCTUATION", "weight(3)", 1),
    weight(BIG5, "CJK_OTHER", "weight(4)", 2),
    weight(BIG5, "BIG5_SCORE_PER_LEVEL_1_HANZI", "weight(5)", 1),
    weight(BIG5, "BIG5_SCORE_PER_OTHER_HANZI", "weight(6)", 2),
    weight(BIG5, "BIG5_PUA_PENALTY", "weight(7)", 1),
    weight(BIG5, "BIG5_SINGLE_BYTE_EXTENSION_PENALTY", "weight(8)", 3),
    weight(EUC_KR, "CJK_LATIN_ADJACENCY_PENALTY", "weight(2)", 4),
    weight(EUC_KR, "CJK_OTHER", "weight(4)", 1),
    weight(EUC_KR, "EUC_KR_SCORE_PER_EUC_HANGUL", "weight(9)", 1),
    weight(EUC_KR, "EUC_KR_SCORE_PER_NON_EUC_HANGUL", "weight(10)", 1),
    weight(EUC_KR, "EUC_KR_SCORE_PER_HANJA", "weight(11)", 1),
    weight(EUC_KR, "EUC_KR_HANJA_AFTER_HANGUL_PENALTY", "weight(12)", 2),
    weight(EUC_KR, "EUC_KR_PUA_PENALTY", "weight(13)", 1),
    weight(EUC_KR, "EUC_KR_MAC_KOREAN_PENALTY", "weight(14)", 1),
    weight(EUC_KR, "EUC_KR_SINGLE_BYTE_EXTENSION_PENALTY", "weight(15)", 3),
    weight(EUC_KR, "EUC_KR_LONG_WORD_PENALTY", "weight(16)", 3),
    Edit {
        item: EUC_KR,
        pattern: "more_problematic_lead",
        how: How::Replace("problematic_lead"),
        times: 1,
        why: "document 01 holds by the one set of leads in both places",
        departs: true,
    },
    variant("Latin(LatinCandidate),"),
    variant("NonLatinCased(NonLatinCasedCandidate),"),
    variant("EucJp(EucJpCandidate),"),
    variant("Gbk(GbkCandidate),"),
    arm("InnerCandidate::Latin(c) =>"),
    arm("InnerCandidate::NonLatinCased(c) =>"),
    arm("InnerCandidate::EucJp(c) =>"),
    arm("InnerCandidate::Gbk(c) =>"),
    Edit {
        item: "struct EncodingDetector",
        pattern: "[Candidate; 27]",
        how: How::Replace("[Candidate; 9]"),
        times: 1,
        why: "the slate's nine places",
        departs: false,
    },
];
