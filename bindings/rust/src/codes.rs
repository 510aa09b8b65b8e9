//! States and the fields of an event, as enums with the definition's codes.

use std::error::Error;
use std::fmt;

/// A byte that is not a code of the type that was asked for.
///
/// ```
/// use korehyumo::Request;
///
/// let unknown = Request::try_from(3).unwrap_err();
/// assert_eq!(unknown.to_string(), "3 is no code of Request");
/// ```
#[derive(Clone, Copy, Debug, PartialEq, Eq)]
pub struct UnknownCode {
    /// The name of the type.
    pub kind: &'static str,
    /// The byte.
    pub code: u8,
}

impl fmt::Display for UnknownCode {
    fn fmt(&self, f: &mut fmt::Formatter<'_>) -> fmt::Result {
        write!(f, "{} is no code of {}", self.code, self.kind)
    }
}

impl Error for UnknownCode {}

/// Declares an enum with codes and names, and the conversions from and to codes.
macro_rules! kind {
    ($(#[$about:meta])* $kind:ident { $($(#[$meaning:meta])* $name:ident = $code:literal,)+ }) => {
        $(#[$about])*
        // The names are those of the CHI tables.
        #[allow(non_camel_case_types)]
        #[derive(Clone, Copy, Debug, PartialEq, Eq, PartialOrd, Ord, Hash)]
        #[repr(u8)]
        pub enum $kind {
            $($(#[$meaning])* $name = $code,)+
        }

        impl $kind {
            /// All values, in the order of their codes.
            pub const ALL: [$kind; [$($code),+].len()] = [$($kind::$name),+];

            /// Its code in the definition.
            pub const fn code(self) -> u8 {
                self as u8
            }

            /// Its name, as in the tables and on the bench sheet.
            pub const fn name(self) -> &'static str {
                match self {
                    $($kind::$name => stringify!($name),)+
                }
            }
        }

        impl fmt::Display for $kind {
            fn fmt(&self, f: &mut fmt::Formatter<'_>) -> fmt::Result {
                f.pad(self.name())
            }
        }

        impl TryFrom<u8> for $kind {
            type Error = UnknownCode;

            fn try_from(code: u8) -> Result<$kind, UnknownCode> {
                let known = $kind::ALL.into_iter().find(|value| value.code() == code);
                known.ok_or(UnknownCode { kind: stringify!($kind), code })
            }
        }
    };
}

kind! {
    /// The state of a cache line.
    ///
    /// ```
    /// use korehyumo::State;
    ///
    /// assert_eq!(State::SD.code(), 6);
    /// assert_eq!(State::try_from(6), Ok(State::SD));
    /// assert!(State::SD.is_dirty());
    /// ```
    State {
        /// Invalid.
        I = 0,
        /// Unique Clean.
        UC = 1,
        /// Unique Clean Empty.
        UCE = 2,
        /// Unique Dirty.
        UD = 3,
        /// Unique Dirty Partial.
        UDP = 4,
        /// Shared Clean.
        SC = 5,
        /// Shared Dirty.
        SD = 6,
    }
}

impl State {
    /// Whether the line has to be written back: UD, UDP and SD.
    pub const fn is_dirty(self) -> bool {
        matches!(self, State::UD | State::UDP | State::SD)
    }
}

kind! {
    /// The snoop request.
    ///
    /// ```
    /// use korehyumo::Request;
    ///
    /// assert_eq!(Request::SnpPreferUniqueFwd.code(), 22);
    /// assert_eq!(Request::try_from(22), Ok(Request::SnpPreferUniqueFwd));
    /// ```
    Request {
        /// In table B4.46.
        SnpShared = 1,
        /// In table B4.46.
        SnpClean = 2,
        /// In table B4.46.
        SnpNotSharedDirty = 4,
        /// In the bench copy.
        SnpUnique = 7,
        /// In the bench copy.
        SnpCleanInvalid = 9,
        /// In the bench copy. It throws a Dirty line away on purpose.
        SnpMakeInvalid = 10,
        /// In table B4.57.
        SnpCleanFwd = 18,
        /// In table B4.57.
        SnpNotSharedDirtyFwd = 20,
        /// In table B4.46.
        SnpPreferUnique = 21,
        /// In table B4.59, and with excl 0 in B4.60 too.
        SnpPreferUniqueFwd = 22,
    }
}

kind! {
    /// The state of the line's memory tags in the snoopee.
    ///
    /// A tag state that was not seen is `None` in [`Fields::tag`](crate::Fields::tag).
    TagState {
        /// There are no tags.
        Invalid = 0,
        /// The tags are those of memory.
        Clean = 1,
        /// The tags have to be written back.
        Dirty = 2,
    }
}

kind! {
    /// The TagOp of an answer: what it says of memory tags.
    TagOp {
        /// No tags come with it.
        Invalid = 0,
        /// Tags come with it.
        Transfer = 1,
        /// Tags come with it that have to be written back.
        Update = 2,
        /// No row has it.
        Match = 3,
    }
}

kind! {
    /// An error field: the RespErr of an answer to Home, or the fwdErr of forwarded data.
    RespErr {
        /// No error.
        OK = 0,
        /// No row has it.
        EXOK = 1,
        /// The data is in error.
        DERR = 2,
        /// A non-data error; the answer has neither data nor a forward.
        NDERR = 3,
    }
}

kind! {
    /// The Resp of an answer: the state that it names, and whether it passes the duty to write back to Home (PD).
    Resp {
        /// I.
        I = 0,
        /// SC; tables B4.46 and B4.57 allow I too.
        SC = 1,
        /// SD.
        SD = 3,
        /// I, and Home holds the duty.
        I_PD = 4,
        /// SC, as above, and Home holds the duty.
        SC_PD = 5,
    }
}

kind! {
    /// The FwdState of an answer: the state that forwarded data names, and whether it passes the duty to write back to the Requester (PD).
    FwdState {
        /// SC.
        SC = 1,
        /// UC.
        UC = 2,
        /// UD, and the Requester holds the duty.
        UD_PD = 6,
        /// SD, and the Requester holds the duty.
        SD_PD = 7,
    }
}
