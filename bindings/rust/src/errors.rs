//! Why a call did not do what was asked.
use crate::sys::NO_MEMORY;
use std::error::Error;
use std::fmt;

/// Declares an error enum, its texts, and which status each variant stands for; and what else is told, which a variant may have.
macro_rules! errors {
    ($(#[$about:meta])* $name:ident $(($told:ident: $kind:ty))? {
        $($(#[$doc:meta])* $variant:ident $({ $field:ident: $field_kind:ty })? = $number:expr, $text:literal;)*
    }) => {
        $(#[$about])*
        #[derive(Clone, Copy, Debug, PartialEq, Eq, Hash)]
        #[non_exhaustive]
        pub enum $name {
            $($(#[$doc])* $variant $({ $field: $field_kind })?,)*
            /// A status of a later library.
            Other(u32),
        }

        impl $name {
            pub(crate) fn of(status: u32 $(, $told: $kind)?) -> $name {
                match status {
                    $(it if it == $number => $name::$variant $({ $field })?,)*
                    other => $name::Other(other),
                }
            }

            /// The number that the library told.
            pub fn number(self) -> u32 {
                match self {
                    $($name::$variant { .. } => $number,)*
                    $name::Other(number) => number,
                }
            }
        }

        impl fmt::Display for $name {
            fn fmt(&self, f: &mut fmt::Formatter<'_>) -> fmt::Result {
                match self {
                    $($name::$variant { .. } => f.write_str($text),)*
                    $name::Other(number) => write!(f, "status {number}"),
                }
            }
        }

        impl Error for $name {}
    };
}

/// The same of calls that read a text, which has eight reasons of its own.
macro_rules! errors_of_a_text {
    ($(#[$about:meta])* $name:ident $(($told:ident: $kind:ty))? { $($more:tt)* }) => {
        errors! {
            $(#[$about])*
            $name $(($told: $kind))? {
                TooLong = 201, "the text is too long";
                NotJson = 202, "the text is no JSON";
                NotObject = 203, "the value is no object";
                UnknownWord = 204, "the command's name is not known";
                MissingField = 205, "a field is not there";
                WrongKind = 206, "a field is not of its kind";
                BadName = 207, "a text is no name";
                ExtraField = 208, "there is a field that does not belong there";
                $($more)*
            }
        }
    };
}

errors! {
    /// Why a founding file founds no policy, and no member: the first reason, in the order of the checks.
    OpenError {
        TooLong = 101, "the file has more than 1048576 bytes";
        NotToml = 102, "the file is no TOML text";
        BadVersion = 103, "`version` is not there, or is not the whole number 1 or 2";
        UnknownKey = 104, "there is a key that is not known";
        MissingKey = 105, "a key that has to be there is not there";
        WrongKind = 106, "a value is not of its kind";
        OutOfRange = 107, "a number is outside its range, a list has too many entries, or `hierarchy` is neither `general` nor `limited`";
        BadName = 108, "a text is no name";
        Repeated = 109, "an operation, an object or a permission stands twice";
        UnknownName = 110, "a permission speaks of an operation or an object that is not listed";
        /// Of a member alone.
        UnknownMember = 301, "the founding's group has no such member";
        /// Memory ran out. There is no policy, and no member.
        NoMemory = NO_MEMORY, "no memory";
    }
}

#[cfg(feature = "policy")]
errors_of_a_text! {
    /// Why a text is no command. The policy is as it was.
    ApplyError {
        /// Memory ran out. The command can be applied again.
        NoMemory = NO_MEMORY, "no memory";
    }
}

#[cfg(feature = "member")]
errors_of_a_text! {
    /// Why a member did not do what was asked. It is as it was. What can be the reason of a call stands with it in
    /// include/fochillun.h. `next` is told by the steps, and not by what asks for the next message (`next_submit` ..).
    MemberError(next: Option<u64>) {
        UnknownMember = 301, "the founding's group has no such member";
        BadBatch = 302, "a message sends 1 to 64 commands, each with a serial";
        FromSelf = 303, "a member receives nothing of its own";
        NotSent = 304, "no message, or no record, has this number";
        Repeat { next: Option<u64> } = 305, "that message was received";
        Gap { next: Option<u64> } = 306, "a message before it is missing";
        StampNotRising = 307, "the message could not follow those before it";
        ClockFull = 308, "the clock is at its end";
        SentFull = 309, "the member has sent as many messages as it may";
        BadSerial { next: Option<u64> } = 310, "the serial is not the caller's next one";
        MessageTooLong = 311, "the message's text would be too long";
        /// Of an observer alone, of a message that it would have to acknowledge.
        NotYet = 312, "an observer receives it once the member's own row has a later message";
        /// Of an observer alone.
        Observes = 313, "an observer sends nothing";
        /// Of `review` alone.
        NotAReview = 314, "the command is neither a review nor a check of access";
        /// Memory ran out. The call can be made again.
        NoMemory = NO_MEMORY, "no memory";
    }
}

/// Why a member was not made anew.
#[cfg(feature = "member")]
#[derive(Clone, Copy, Debug, PartialEq, Eq, Hash)]
pub enum RestoreError {
    /// The founding founds no such member.
    Open(OpenError),
    /// The message of this number of its row was not taken.
    TakeOwn { number: u32, error: MemberError },
}

#[cfg(feature = "member")]
impl fmt::Display for RestoreError {
    fn fmt(&self, f: &mut fmt::Formatter<'_>) -> fmt::Result {
        match self {
            RestoreError::Open(error) => error.fmt(f),
            RestoreError::TakeOwn { number, error } => write!(f, "message {number}: {error}"),
        }
    }
}

#[cfg(feature = "member")]
impl Error for RestoreError {}

errors! {
    /// Why a policy is not told as commands. It is as it was.
    DumpError {
        NoMemory = NO_MEMORY, "no memory";
    }
}

errors! {
    /// Why a check is neither granted nor refused. Access is not granted.
    CheckError {
        NoSession = 10, "there is no such session";
        NoOperation = 27, "there is no such operation";
        NoObject = 28, "there is no such object";
        BadName = 52, "a text is no name";
    }
}

errors! {
    /// Why it is not told who may perform an operation on an object: the first reason, in this order. Nothing has changed.
    SubjectsError {
        BadName = 52, "a text is no name";
        NoOperation = 27, "there is no such operation";
        NoObject = 28, "there is no such object";
        /// Memory ran out. The call can be made again.
        NoMemory = NO_MEMORY, "no memory";
    }
}
