//! Refusals: why, and the place.

use std::fmt;

use crate::places::{Expander, Phy};

/// A cause for each number: its name here, the number and the text of
/// docs/FILE-FORMAT.md.
macro_rules! causes {
    ($($name:ident $number:literal $text:literal)*) => {
        /// Why a call refuses. `Display` gives the text for its number.
        ///
        /// ```
        /// use metzurgo::Cause;
        /// assert_eq!(Cause::Loop.number(), 11);
        /// assert_eq!(Cause::Loop.to_string(), "The cables form a loop.");
        /// assert_eq!(Cause::of(11), Cause::Loop);
        /// ```
        #[derive(Clone, Copy, Debug, PartialEq, Eq, Hash)]
        #[non_exhaustive]
        pub enum Cause {
            $(#[doc = concat!(stringify!($number), ": ", $text)] $name,)*
            /// A number that this crate has no name for.
            Other(u8),
        }

        impl Cause {
            /// Every cause that has a name, by number.
            pub const ALL: &'static [Cause] = &[$(Cause::$name),*];

            /// The cause of a number.
            pub fn of(number: u8) -> Cause {
                match number {
                    $($number => Cause::$name,)*
                    other => Cause::Other(other),
                }
            }

            /// The number of a cause.
            pub fn number(self) -> u8 {
                match self {
                    $(Cause::$name => $number,)*
                    Cause::Other(number) => number,
                }
            }

            /// What it means, in words.
            pub fn text(self) -> &'static str {
                match self {
                    $(Cause::$name => $text,)*
                    Cause::Other(_) => "A cause that this version has no words for.",
                }
            }
        }
    };
}

causes! {
    Length 1 "The file ends too early, or has bytes after its last phy; or words are the form of no accepted rig."
    FixedByte 2 "The first byte of the file, or a fixed byte of a frame, is wrong; or a frame states a length that is not its own."
    Count 3 "There are no expanders or more than the setting allows (64 at most), or an expander has no phys or more than it allows (128 at most); or a shelf is told phys, R or kinds that it cannot have."
    ExpanderAddress 4 "An expander's address is zero, or an earlier expander has it."
    PhyPlace 5 "A phy's identifier or its own address does not fit its place in the file."
    PhyCodes 6 "A phy's type or attribute is a reserved code (type above 3, attribute above 2), or something is attached with address zero."
    Cable 7 "A cable to an expander is on a direct phy, or its far end is missing or does not name it back."
    DriveAddress 8 "A drive has an expander's address, or the same drive is at an earlier expander too."
    Attributes 9 "Two phys of an expander to one address have different attributes, or two subtractive phys lead to different addresses."
    NotConfigurable 10 "A table phy is on an expander that is not configurable."
    Loop 11 "The cables form a loop."
    Island 12 "No chain of cables joins this expander to expander 0."
    ListTooLong 14 "A table phy has more entries to hold than its expander has route indexes."
    Request 15 "A request starts at no expander of the file, or at a phy that no drive is attached to; or a loading frame names a phy above 127."
    Room 16 "A lent buffer is too short."
    AddressZero 17 "The requested address is zero."
    BitRoom 18 "The lent disable bits are too few: each table word has one, and they are lent in whole bytes."
    Card 19 "A card's version, one of its zero bits, a vacant phy's result or its length is wrong."
    Event 20 "The phy of an event does not exist, is vacant or is attached to an expander."
    Join 21 "A phy of the cable that is to join two rigs does not exist, is vacant, is not subtractive or is attached; or its expander has an attached subtractive phy."
    Setting 22 "The course's setting is out of its range: 1 to 64 expanders, 1 to 128 phys, chains of 1 to 64 expanders."
    Chain 23 "A chain of cabled expanders is longer than the setting allows."
    NoRig 24 "No accepted rig of two expanders has these words as its table."
}

impl fmt::Display for Cause {
    fn fmt(&self, f: &mut fmt::Formatter<'_>) -> fmt::Result {
        f.write_str(self.text())
    }
}

/// A refusal: its cause and the place that it names.
///
/// ```
/// use metzurgo::{Cause, Expander, Phy, Refusal};
/// let refusal = Refusal { cause: Cause::Loop, expander: Expander(0), phy: Phy(0) };
/// assert_eq!(refusal.to_string(), "refused 11 0 0: The cables form a loop.");
/// ```
#[derive(Clone, Copy, Debug, PartialEq, Eq, Hash)]
pub struct Refusal {
    pub cause: Cause,
    pub expander: Expander,
    pub phy: Phy,
}

impl fmt::Display for Refusal {
    fn fmt(&self, f: &mut fmt::Formatter<'_>) -> fmt::Result {
        let number = self.cause.number();
        let (expander, phy) = (self.expander, self.phy);
        write!(f, "refused {number} {expander} {phy}: {}", self.cause)
    }
}

impl std::error::Error for Refusal {}

/// The answer of a call, or its refusal, which bit 63 marks.
pub(crate) fn accepted(answer: u64) -> Result<u64, Refusal> {
    if answer >> 63 == 0 {
        Ok(answer)
    } else {
        Err(Refusal {
            cause: Cause::of((answer >> 16) as u8),
            expander: Expander((answer >> 8) as u8),
            phy: Phy(answer as u8),
        })
    }
}
