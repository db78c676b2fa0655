//! Why a scene or a kernel's argument is turned down.

use std::error::Error;
use std::fmt;

/// Why a packed scene is turned down. The variants stand in the order of their numbers, 1 to 10.
#[derive(Clone, Copy, Debug, PartialEq, Eq, Hash)]
pub enum Reason {
    /// A field is not wholly there.
    Missing = 1,
    /// Another version than 1, 2 and 4, at offset 0; or a rule that the version does not have, at offset
    /// 1: version 1 has rule 0 alone, versions 2 and 4 have 0 to 3.
    Form,
    /// More than 8 fluids or boundaries.
    Models,
    /// A count above 4,096.
    Count,
    /// Bytes follow the last record.
    Trailing,
    /// A double that is not finite.
    NotFinite,
    /// A contact names a model or a particle that is not there.
    NotThere,
    /// The answer or the work list is shorter than needed.
    ShortList,
    /// A density is zero.
    ZeroDensity,
    /// A predicted density is zero.
    ZeroPredictedDensity,
}

impl Reason {
    pub(crate) const ALL: [Reason; 10] = [
        Reason::Missing,
        Reason::Form,
        Reason::Models,
        Reason::Count,
        Reason::Trailing,
        Reason::NotFinite,
        Reason::NotThere,
        Reason::ShortList,
        Reason::ZeroDensity,
        Reason::ZeroPredictedDensity,
    ];

    /// Its number, 1 to 10.
    pub fn number(self) -> u8 {
        self as u8
    }

    fn text(self) -> &'static str {
        match self {
            Reason::Missing => "a field is not wholly there",
            Reason::Form => {
                "the version is neither 1, 2 nor 4, or does not have the rule; \
                 write version 1 with rule 0, or version 2, or 4 for a flat scene, with rule 0 (salva) \
                 or 1 (Ihmsen 2014), or with 2 or 3 for these by halves"
            }
            Reason::Models => {
                "more than 8 fluids or boundaries; join fluids of one rest density, or boundaries, until there are 8"
            }
            Reason::Count => "a count above 4096",
            Reason::Trailing => "bytes follow the last record",
            Reason::NotFinite => "a double is infinite or not a number",
            Reason::NotThere => "a contact names a model or a particle that is not there",
            Reason::ShortList => "the answer or the work list is shorter than needed",
            Reason::ZeroDensity => "a density is zero",
            Reason::ZeroPredictedDensity => "a predicted density is zero",
        }
    }
}

/// A scene that is turned down, with the offset of the byte where the field, contact or record
/// begins (0 for a short list).
#[derive(Clone, Copy, Debug, PartialEq, Eq, Hash)]
pub struct Refusal {
    /// Why.
    pub reason: Reason,
    /// Where.
    pub offset: u64,
}

impl fmt::Display for Refusal {
    fn fmt(&self, f: &mut fmt::Formatter<'_>) -> fmt::Result {
        write!(f, "refused {} at byte {}: {}", self.reason.number(), self.offset, self.reason.text())
    }
}

impl Error for Refusal {}

/// The kernel's argument that is turned down.
#[derive(Clone, Copy, Debug, PartialEq, Eq, Hash)]
pub enum KernelRefusal {
    /// 11: the distance is not finite or below 0.
    Distance,
    /// 12: the radius is not finite or not above 0.
    Radius,
}

impl fmt::Display for KernelRefusal {
    fn fmt(&self, f: &mut fmt::Formatter<'_>) -> fmt::Result {
        f.write_str(match self {
            KernelRefusal::Distance => "refused 11: the distance is not finite or below 0",
            KernelRefusal::Radius => "refused 12: the radius is not finite or not above 0",
        })
    }
}

impl Error for KernelRefusal {}

// 100 + n, n from 1 to 10; the contracts leave no other number.
pub(crate) fn refusal(code: u64, offset: u64) -> Refusal {
    match code.checked_sub(101).and_then(|n| Reason::ALL.get(n as usize)) {
        Some(&reason) => Refusal { reason, offset },
        None => unreachable!("the archive answered {code}"),
    }
}
