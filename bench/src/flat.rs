//! The structs of numbers that both programs take and give, as the archive lays them out.

/// "More" as a number; document 01 gives it none.
pub const MORE: u32 = 0xFFFF_FFFF;

/// Phases: word 0 or not begun, a header's three words, data and their checksum, an answer told.
pub const FRESH: u32 = 0;
pub const ID: u32 = 1;
pub const LENGTH: u32 = 2;
pub const SUM: u32 = 3;
pub const DATA: u32 = 4;
pub const TOLD: u32 = 5;

/// A load state.
#[repr(C)]
#[derive(Clone, Copy, PartialEq, Eq, Debug, Default)]
pub struct FlatLoad {
    pub phase: u32,
    pub told: u32,
    pub table: u32,
    pub placed: u64,
    pub due: u64,
    pub first: u32,
    pub second: u32,
    pub stream: u32,
    pub block: u32,
}

impl FlatLoad {
    /// What later writes can read of it: nothing that its phase does not need.
    pub fn meaning(&self) -> FlatLoad {
        let base = FlatLoad { phase: self.phase, ..FlatLoad::default() };
        let summed = FlatLoad { stream: self.stream, ..base };
        match self.phase {
            FRESH => base,
            ID => summed,
            LENGTH => FlatLoad { first: self.first, ..summed },
            SUM => FlatLoad { first: self.first, second: self.second, ..summed },
            DATA => FlatLoad {
                table: self.table,
                placed: self.placed,
                due: self.due,
                block: self.block,
                ..summed
            },
            _ => FlatLoad { told: self.told, ..base },
        }
    }
}

#[repr(C)]
#[derive(Clone, Copy, PartialEq, Eq, Debug)]
pub struct FlatLedger {
    pub units: [u64; 8],
    pub credit: [u64; 45],
    pub since: [u64; 45],
    pub frames: [u64; 5],
    pub drops: [u64; 5],
    pub octets: [u64; 5],
    pub dropped: [u64; 5],
    pub last: u64,
}

impl FlatLedger {
    /// One number throughout: what is lent where all of it is filled.
    pub fn all(number: u64) -> FlatLedger {
        FlatLedger {
            units: [number; 8],
            credit: [number; 45],
            since: [number; 45],
            frames: [number; 5],
            drops: [number; 5],
            octets: [number; 5],
            dropped: [number; 5],
            last: number,
        }
    }
}

/// 0 refused, 1 dropped, 2 sent; the number of the first two, the values of the last.
#[repr(C)]
#[derive(Clone, Copy, PartialEq, Eq, Debug, Default)]
pub struct FlatVerdict {
    pub kind: u32,
    pub number: u32,
    pub ports: u64,
    pub vlan: u64,
    pub priority: u64,
    pub tags: u64,
    pub queues: [u64; 5],
}

/// A frame's verdict, and how many replicas it has.
#[repr(C)]
#[derive(Clone, Copy, PartialEq, Eq, Debug)]
pub struct FlatJudged {
    pub verdict: FlatVerdict,
    pub replicas: u64,
}

/// The places that are lent for the verdicts on replicas.
pub type Replicas = [FlatVerdict; 32];

/// 0 refused, 1 not-loaded, 2 no-frames, 3 shares, by their bits.
#[repr(C)]
#[derive(Clone, Copy, PartialEq, Eq, Debug)]
pub struct FlatTile {
    pub kind: u32,
    pub number: u32,
    pub share: u64,
    pub octets: u64,
}

/// One of the two programs: the same calls in both. Load state, ledger and places for replicas are lent.
pub struct Program {
    pub load_words: fn(&mut [u32], &[u32]) -> u32,
    pub load_bytes: fn(&mut [u32], &[u8]) -> u32,
    pub write: fn(&mut [u32], &mut FlatLoad, &[u32]) -> u32,
    pub fresh_ledger: fn(&[u32], &mut FlatLedger) -> u32,
    pub judge: fn(&[u32], &mut FlatLedger, usize, u64, &[u8], &mut Replicas) -> FlatJudged,
    pub release: fn(&[u32], &mut FlatLedger, usize) -> u32,
    pub tile: fn(&[u32], &FlatLedger, usize) -> FlatTile,
}
