//! One list of numbers, names and sentences makes an enum that has all three.

macro_rules! numbered {
    ($(#[$about:meta])* $kind:ident: $($number:literal $name:ident $sentence:literal)*) => {
        $(#[$about])*
        #[derive(Clone, Copy, Debug, PartialEq, Eq, Hash)]
        pub enum $kind {
            $(#[doc = $sentence] $name = $number,)*
        }

        impl $kind {
            /// All of them, by rising number.
            pub const ALL: &'static [$kind] = &[$($kind::$name),*];

            /// The scope's number.
            pub fn number(self) -> u32 {
                self as u32
            }

            /// The name, as it stands in this enum.
            pub fn name(self) -> &'static str {
                match self {
                    $($kind::$name => stringify!($name),)*
                }
            }

            /// What it asks, in plain words.
            pub fn sentence(self) -> &'static str {
                match self {
                    $($kind::$name => $sentence,)*
                }
            }
        }

        /// # Errors
        ///
        /// A number that is none is refused as the library refuses it, by question 2.
        impl TryFrom<u32> for $kind {
            type Error = $crate::Refusal;

            fn try_from(number: u32) -> Result<$kind, $crate::Refusal> {
                let found = $kind::ALL.iter().find(|each| each.number() == number);
                found.copied().ok_or($crate::Refusal { number: 2, place: 0 })
            }
        }

        /// From its name or its number. Large and small letters are the same, and what is neither letter nor digit is left
        /// out, so that a name may be written as in a sentence.
        ///
        /// # Errors
        ///
        /// Where none has this name or number.
        impl core::str::FromStr for $kind {
            type Err = $crate::UnknownName;

            fn from_str(word: &str) -> Result<$kind, $crate::UnknownName> {
                let is_it = |each: &&$kind| $crate::numbered::same_name(each.name(), word);
                let named = $kind::ALL.iter().find(is_it).copied();
                let is_number = word.bytes().all(|byte| byte.is_ascii_digit());
                let number = || word.parse::<u32>().ok().filter(|_| is_number);
                let numbered = || number().and_then(|number| $kind::try_from(number).ok());
                named.or_else(numbered).ok_or($crate::UnknownName)
            }
        }

        impl core::fmt::Display for $kind {
            fn fmt(&self, f: &mut core::fmt::Formatter<'_>) -> core::fmt::Result {
                f.write_str(self.name())
            }
        }
    };
}

/// Whether these are the same but for how they are written.
pub(crate) fn same_name(one: &str, other: &str) -> bool {
    let is_kept = |letter: &char| letter.is_alphanumeric();
    let letters = |name| str::chars(name).filter(is_kept).map(|letter| letter.to_ascii_lowercase());
    letters(one).eq(letters(other))
}

/// A word that is the name of nothing that was looked for.
#[derive(Clone, Copy, Debug, PartialEq, Eq, Hash)]
pub struct UnknownName;

impl core::fmt::Display for UnknownName {
    fn fmt(&self, f: &mut core::fmt::Formatter<'_>) -> core::fmt::Result {
        f.write_str("no such name or number")
    }
}

impl core::error::Error for UnknownName {}
