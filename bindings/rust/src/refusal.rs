//! Document 01's numbered list of refusals.

use std::fmt;

/// One line for each number: its name, what its place counts if it has one, and when it is given.
macro_rules! refusals {
    (@placed) => { None };
    (@placed $at:ident) => { Some((stringify!($at), $at)) };
    ($($number:literal $name:ident $(($at:ident: $ty:ident))? $when:literal;)*) => {
        /// Why a call was refused: a number of document 01's list, with a place where the number has one.
        ///
        /// A refusal leaves every lent buffer and meter as it was.
        ///
        /// ```
        /// use masoritun::Refusal;
        ///
        /// // Document 01's worked case: NaN second gives 4 at 1.
        /// let refusal = masoritun::split(&[0.0, f32::NAN], &mut [0; 2]).unwrap_err();
        /// assert_eq!(refusal, Refusal::Domain(1));
        /// assert_eq!((refusal.number(), refusal.place()), (4, 1));
        /// assert_eq!(refusal.to_string(), "refused with 4 at element 1: element outside the domain");
        /// ```
        #[derive(Clone, Copy, Debug, PartialEq, Eq, Hash)]
        #[non_exhaustive]
        pub enum Refusal {$(
            #[doc = concat!("Number ", $number, ": ", $when, ".", $(" Its place is the first such ", stringify!($at), ", from 0.")?)]
            $name $(($ty))?,
        )*}

        impl Refusal {
            /// The number in document 01's list, 1 to 12, or 15.
            pub fn number(&self) -> u8 {
                match self {
                    $(Self::$name { .. } => $number,)*
                }
            }

            /// When document 01 gives it.
            fn when(&self) -> &'static str {
                match self {
                    $(Self::$name { .. } => $when,)*
                }
            }

            /// What the place counts, and the place.
            fn placed(&self) -> Option<(&'static str, usize)> {
                match *self {
                    $(Self::$name $(($at))? => refusals!(@placed $($at)?),)*
                }
            }

            fn of(number: u64, place: u64) -> Self {
                match number {
                    $($number => Self::$name $((place as $ty))?,)*
                    _ => panic!("the library answered {number}, which is not in document 01's list"),
                }
            }
        }
    };
}

refusals! {
    1 Length "lent slices differ from the needed length";
    2 TooMany "over 16,384 elements in a kernel or feeding, or meter count would pass 4,294,967,295";
    3 NotFinite "alpha, offset, inv_scale or a setting not finite; meter float NaN, sum of squares below zero or more overs than samples";
    4 Domain(element: usize) "element outside the domain";
    5 Masked "all masked, in split or in softmax of one or more elements with flush off";
    6 Result(element: usize) "normalize would yield NaN";
    7 Count "bands outside 1..64, or rows outside 1..1,024";
    8 RowTotal(row: usize) "row not adding up to 32768, or in form 2 stored gains that pass it";
    9 StoredLength "stored length wrong";
    10 Check(block: usize) "check wrong";
    11 Header(block: usize) "form, block number, bands or rows wrong, or form, bands or rows unlike block 0";
    12 Unused(block: usize) "unused byte not zero";
    15 OneBand "a one-band table has no form 2";
}

impl Refusal {
    /// The place: an element, a row (through the table) or a block, each from 0, and 0 where the number has none.
    pub fn place(&self) -> usize {
        self.placed().map_or(0, |(_, place)| place)
    }
}

impl fmt::Display for Refusal {
    fn fmt(&self, f: &mut fmt::Formatter<'_>) -> fmt::Result {
        write!(f, "refused with {}", self.number())?;
        if let Some((what, place)) = self.placed() {
            write!(f, " at {what} {place}")?;
        }
        write!(f, ": {}", self.when())
    }
}

impl std::error::Error for Refusal {}

/// An answer word: the number in its low 8 bits, 0 where done, and the place above.
pub(crate) fn answer(word: u64) -> Result<(), Refusal> {
    match word & 0xff {
        0 => Ok(()),
        number => Err(Refusal::of(number, word >> 8)),
    }
}
