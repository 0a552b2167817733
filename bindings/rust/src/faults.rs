//! The library's numbers of faults (`enum uas_fault` in `include/uas.h`), and the enums that they become.

use std::fmt;

pub const TRB_UNKNOWN_TYPE: u8 = 16;
pub const TRB_LENGTH_OVER: u8 = 17;
pub const UNIT_UNKNOWN_ID: u8 = 32;
pub const UNIT_SHORT: u8 = 33;
pub const UNIT_LONG: u8 = 34;
pub const UNIT_RESERVED_SET: u8 = 35;

/// An enum of faults, each with its numbers and what it says. A number that the crate's calls don't lead to is the last one's.
macro_rules! faults {
    ($(#[$doc:meta])* $name:ident { $($(#[$case_doc:meta])* $case:ident = $($number:literal)|+, $says:literal;)* } else { $(#[$last_doc:meta])* $last:ident, $last_says:literal }) => {
        $(#[$doc])*
        #[derive(Clone, Copy, Debug, PartialEq, Eq, Hash)]
        pub enum $name {
            $($(#[$case_doc])* $case,)*
            $(#[$last_doc])*
            $last,
        }

        impl $name {
            /// What a call came to.
            pub(crate) fn of(fault: u8) -> Result<(), Self> {
                match fault {
                    0 => Ok(()),
                    $($($number)|+ => Err(Self::$case),)*
                    _ => Err(Self::$last),
                }
            }
        }

        impl fmt::Display for $name {
            fn fmt(&self, out: &mut fmt::Formatter<'_>) -> fmt::Result {
                out.write_str(match self {
                    $(Self::$case => $says,)*
                    Self::$last => $last_says,
                })
            }
        }

        impl std::error::Error for $name {}
    };
}

#[cfg(feature = "block")]
pub(crate) use faults;

faults! {
    /// Why there is no device, controller or bus: the first that holds.
    OpenFault {
        /// No logical unit, or more than there may be: 31, of a bus 248 through the tags of each client.
        Units = 56, "no logical unit, or more than there may be";
        /// A logical unit of no block, or of more than 65,536.
        Blocks = 57, "a logical unit of no block, or of more than 65536";
        /// The image isn't as long as the logical units' blocks together.
        Image = 58, "an image of another length than the blocks";
        /// A bad block of a logical unit that isn't there, or beyond its last block.
        BadBlock = 59, "a bad block that isn't there";
        /// Of a bus, another number of tags of each client than 2 to 16.
        Tags = 60, "a number of tags other than 2 to 16";
    } else {
        NoMemory, "no memory"
    }
}

faults! {
    /// Why there is no driver.
    NewDriverFault {
        /// Another number of tags of each client than 2 to 16.
        Tags = 60, "a number of tags other than 2 to 16";
        /// No client, or more than 31 or 248 through the tags of each.
        Clients = 112, "no client, or more than there may be";
    } else {
        NoMemory, "no memory"
    }
}

faults! {
    /// Why blocks can't be looked at.
    BlocksFault {
        /// There is no such logical unit.
        Unit = 68 | 90 | 129, "no such logical unit";
        /// Blocks beyond the logical unit's last.
        Range = 69 | 91 | 130, "blocks beyond the last";
    } else {
        /// The bytes are no multiple of 512.
        Length, "no multiple of 512"
    }
}

faults! {
    /// Why a device doesn't move a chunk or tell an answer; nothing changed.
    DeviceFault {
        /// The tag isn't at this.
        Phase = 66, "the tag isn't at this";
    } else {
        /// The bytes aren't as many as the chunk.
        Length, "a wrong number of bytes"
    }
}

faults! {
    /// Why a call of a controller is refused; it changed nothing.
    ControllerFault {
        NoMemory = 1, "no memory";
        /// There is no such ring.
        Ring = 81, "no such ring";
        /// The ring has no room.
        Full = 82, "the ring is full";
        /// What is named isn't all in one buffer.
        Address = 84, "not in one buffer";
        /// No tag that has buffers.
        Tag = 85, "no tag that has buffers";
        /// More than 65,536 bytes.
        Length = 86, "more than 65536 bytes";
        /// Something is lent for the tag already.
        Lent = 87, "lent already";
        /// Nothing is lent for the tag.
        NotLent = 88, "not lent";
    } else {
        /// The address isn't that of a consumed item that wasn't given back.
        NotConsumed, "no consumed item"
    }
}

faults! {
    /// Why a client's submission, or a driver's retirement, is refused; it changed nothing.
    ClientFault {
        NoMemory = 1, "no memory";
        /// No such client, or the tag is no command tag of it.
        NotYours = 96, "no command tag of this client";
        /// Something is under the tag.
        InUse = 97, "tag in use";
        /// The data isn't as long as what the command moves.
        BadLength = 98, "data of another length than the command moves";
        /// A READ or WRITE of more than 128 blocks.
        TooLong = 99, "more than 128 blocks";
        /// The ticket isn't above the client's last accepted one.
        OutOfTurn = 100, "a ticket that isn't above the last";
        /// No command of the client is under the tag to abort or to query.
        NoSuchTask = 101, "no such task";
        /// The ticket is 2^60 or more.
        Ticket = 104, "a ticket of 2^60 or more";
        /// The function is none of the three.
        Function = 106, "no such task management function";
        /// Of a driver: a pipe was given up, and no submission is taken any more.
        GivenUp = 115, "a pipe was given up";
    } else {
        /// Of a driver: a ring has too few places, or a command is under the tag.
        Room, "no room on a ring"
    }
}

faults! {
    /// Why a driver doesn't take what its controller does.
    DriverFault {
        /// The TRB is no event.
        Event = 116, "no event";
    } else {
        /// What is named isn't all in one buffer.
        Address, "not in one buffer"
    }
}
