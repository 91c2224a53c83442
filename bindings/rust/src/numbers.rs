//! The documents' numbers by name: why a load, a call or a list is refused, and why a frame is dropped.

use core::fmt;

/// An enum whose cases are the documents' numbers, each with its words.
macro_rules! numbered {
    ($(#[$doc:meta])* $name:ident { $($case:ident = $number:literal, $words:literal;)* }) => {
        $(#[$doc])*
        #[derive(Clone, Copy, PartialEq, Eq, Hash, Debug)]
        #[repr(u32)]
        pub enum $name {
            $(#[doc = concat!($number, ": ", $words, ".")] $case = $number,)*
        }

        impl $name {
            /// Every case, in ascending order of its number.
            pub const ALL: &'static [$name] = &[$($name::$case),*];

            /// The number that documents 01 and 02 give it.
            pub const fn number(self) -> u32 {
                self as u32
            }

            /// The case with this number, if there is one.
            pub const fn of_number(number: u32) -> Option<$name> {
                match number {
                    $($number => Some($name::$case),)*
                    _ => None,
                }
            }
        }

        impl fmt::Display for $name {
            fn fmt(&self, text: &mut fmt::Formatter<'_>) -> fmt::Result {
                text.write_str(match self {
                    $($name::$case => $words,)*
                })
            }
        }
    };
}

numbered! {
    /// Why a load, a call or a list is refused. In each group the first that applies is given, in the order that each function names.
    Refusal {
        WordZero = 1, "word 0 differs from 9E00030E";
        HeaderChecksum = 2, "a header's checksum is wrong";
        UnknownId = 3, "a block ID isn't in table 2 of the manual";
        IdNotCarried = 4, "a block ID is in table 2, and its table isn't carried";
        NotWholeEntries = 5, "a block's length isn't whole entries";
        TooManyEntries = 6, "a table would pass its most entries";
        DataChecksum = 7, "a block's data checksum is wrong";
        GlobalChecksum = 8, "the checksum over the whole stream is wrong";
        ByteCount = 9, "byte input isn't a multiple of 4 long";
        WordsEnd = 10, "the words end before the end block is complete";
        EntryCounts = 20, "06 or 07 has no entry, or 08 not 13, 09 not 5, 0E, 11 or 4E not 1";
        VlanidTwice = 21, "two entries of 07 have one VLANID";
        PortVlanid = 22, "some port's VLANID in 09 has no entry in 07";
        Sharindx = 23, "some SHARINDX isn't below the count of 06";
        PartSpc = 24, "the eight PART_SPC add up to more than 929";
        IndexTwice = 25, "two entries of 05 have one INDEX";
        RetagVlan = 28, "an entry of 12 has a VLAN_ING or VLAN_EGR that no entry of 07 has";
        Image = 30, "the image or the load state can't be believed";
        BufferShort = 31, "the image's buffer is too short";
        WriteLength = 32, "a write of 0 words or above 64";
        Port = 33, "the port is above 4";
        Time = 34, "the time is before the last time or above 2^48 - 1";
        FrameLength = 35, "the frame has over 4,096 bytes";
        Partition = 36, "the partition is above 7";
        NothingOut = 37, "nothing of the partition is out";
        FramesFull = 38, "the port's frames are at 2^32 - 1";
        Ledger = 39, "the ledger is out of range";
        ListMark = 50, "the list's mark isn't FRL";
        ListVersion = 51, "the list's version isn't 1";
        ListCut = 52, "a record, or the list's head, is cut";
        ListKind = 53, "a record is of unknown kind";
        ListLength = 54, "the list has over 16,384 bytes";
    }
}

impl core::error::Error for Refusal {}

numbered! {
    /// Why a frame is dropped: the first of these that applies. A replica has 4 and 7 to 11 alone. L is the frame's bytes plus 4.
    DropCause {
        Short = 1, "L is below 64";
        Ingress = 2, "the port's INGRESS is clear";
        Untagged = 3, "untagged, and the port's DRPUNTAG is set";
        Vlan = 4, "the VLAN has no entry in 07";
        Member = 5, "tagged, and the port isn't in VMEMB_PORT";
        Enfport = 6, "the source address is enforced on other ports";
        Policing = 7, "the policing entry, or the one it shares, isn't loaded";
        Maxlen = 8, "L is above MAXLEN of the policing entry";
        Meter = 9, "the meter is short";
        NoPort = 10, "there is no port to send to";
        Partition = 11, "the partition has no unit left";
    }
}

/// The refusal of an entry's answer. The entries' promises allow no number that isn't in the list.
pub(crate) fn refusal(number: u32) -> Refusal {
    match Refusal::of_number(number) {
        Some(refusal) => refusal,
        None => unreachable!("no refusal has the number {number}"),
    }
}

/// None for 0.
pub(crate) fn done(number: u32) -> Result<(), Refusal> {
    if number == 0 {
        return Ok(());
    }
    Err(refusal(number))
}

/// The cause of a verdict's drop, likewise.
pub(crate) fn drop_cause(number: u32) -> DropCause {
    match DropCause::of_number(number) {
        Some(cause) => cause,
        None => unreachable!("no drop has the number {number}"),
    }
}
