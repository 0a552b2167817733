//! Numbers of the standards that have names.

macro_rules! named {
    ($(#[$doc:meta])* $name:ident { $($(#[$case_doc:meta])* $case:ident = $number:literal),* $(,)? }) => {
        $(#[$doc])*
        #[derive(Clone, Copy, Debug, PartialEq, Eq, Hash)]
        #[non_exhaustive]
        pub enum $name {
            $($(#[$case_doc])* $case,)*
            /// A number without a name here.
            Other(u8),
        }

        impl From<u8> for $name {
            fn from(number: u8) -> Self {
                match number {
                    $($number => Self::$case,)*
                    _ => Self::Other(number),
                }
            }
        }

        impl From<$name> for u8 {
            fn from(named: $name) -> u8 {
                match named {
                    $($name::$case => $number,)*
                    $name::Other(number) => number,
                }
            }
        }
    };
}

named! {
    /// A SCSI status (SAM).
    Status {
        Good = 0x00,
        CheckCondition = 0x02,
    }
}

named! {
    /// A response code (INCITS 471, Response information unit).
    ResponseCode {
        Complete = 0x00,
        InvalidInformationUnit = 0x02,
        NotSupported = 0x04,
        Succeeded = 0x08,
        IncorrectLun = 0x09,
    }
}

named! {
    /// A task management function (INCITS 471, Task Management information unit).
    Function {
        AbortTask = 0x01,
        LogicalUnitReset = 0x08,
        QueryTask = 0x80,
    }
}

named! {
    /// A completion code of an event (xHCI 6.4.5).
    CompletionCode {
        Success = 1,
        TrbError = 5,
        ShortPacket = 13,
        ContextStateError = 19,
        InvalidStreamId = 34,
    }
}
