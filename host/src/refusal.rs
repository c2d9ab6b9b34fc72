//! The numbers that a call answers when it refuses.

use std::fmt;

/// Why a call was refused; the lowest number that applies is given.
///
/// ```
/// use inter::Refusal;
///
/// let refusal = Refusal::from_number(2).unwrap();
/// assert_eq!(refusal, Refusal::Source);
/// assert_eq!(refusal.name(), "source");
/// assert_eq!(refusal.meaning(), "a source plane or row is shorter than needed");
/// assert_eq!(refusal.to_string(), "refusal 2, source: a source plane or row is shorter than needed");
/// assert_eq!(Refusal::from_number(0), None);
/// ```
#[derive(Clone, Copy, Debug, PartialEq, Eq, PartialOrd, Ord, Hash)]
#[repr(u32)]
pub enum Refusal {
    Side = 1,
    Source = 2,
    BlockSide = 3,
    Position = 4,
    Output = 5,
    Unserved = 6,
    Reference = 7,
}

impl Refusal {
    /// Every refusal, by rising number.
    pub const ALL: [Refusal; 7] = [
        Refusal::Side,
        Refusal::Source,
        Refusal::BlockSide,
        Refusal::Position,
        Refusal::Output,
        Refusal::Unserved,
        Refusal::Reference,
    ];

    /// The number that the C call answers.
    #[inline]
    pub fn number(self) -> u32 {
        self as u32
    }

    /// The refusal of that number; none for 0, which is done.
    #[inline]
    pub fn from_number(number: u32) -> Option<Refusal> {
        Refusal::ALL.into_iter().find(|refusal| refusal.number() == number)
    }

    /// A short name, for logs.
    pub fn name(self) -> &'static str {
        self.words().0
    }

    /// What was refused, in a sentence.
    pub fn meaning(self) -> &'static str {
        self.words().1
    }

    fn words(self) -> (&'static str, &'static str) {
        match self {
            Refusal::Side => ("side", "a side, pad or stride is outside its range"),
            Refusal::Source => ("source", "a source plane or row is shorter than needed"),
            Refusal::BlockSide => ("block side", "a block side is outside its range"),
            Refusal::Position => ("position", "a position exceeds 65535"),
            Refusal::Output => ("output", "an output is shorter than needed"),
            Refusal::Unserved => ("unserved", "the half-sample planes do not serve this block"),
            Refusal::Reference => ("reference", "the current reference is outside 0..31"),
        }
    }

    /// The answer of a C call as a result.
    #[inline]
    pub(crate) fn check(number: u32) -> Result<(), Refusal> {
        match (number, Refusal::from_number(number)) {
            (0, _) => Ok(()),
            (_, Some(refusal)) => Err(refusal),
            (_, None) => unknown(number),
        }
    }
}

/// Apart from the calls, which would else keep the number in memory for the message.
#[cold]
fn unknown(number: u32) -> ! {
    panic!("the archive answered {number}, which is no refusal known here")
}

impl fmt::Display for Refusal {
    fn fmt(&self, f: &mut fmt::Formatter<'_>) -> fmt::Result {
        write!(f, "refusal {}, {}: {}", self.number(), self.name(), self.meaning())
    }
}

impl std::error::Error for Refusal {}
