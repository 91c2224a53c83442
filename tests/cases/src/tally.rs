//! How often each refusal, each drop, each side of each boundary and each kind of replica was hit, and
//! what failed.

use std::collections::BTreeMap;

use reference::judge::{Judged, Verdict};
use reference::tables::ROWS;

use crate::case::{Case, Side};
use crate::rules::{refusals, NEEDED};

/// Boundaries of which both sides must be hit. A name with `{row}` is one for each row, with its
/// ID; one with `{needed}` is one for each table that rule 20 asks for.
const BOUNDARIES: &[&str] = &[
    "1 word 0",
    "2 header checksum",
    "3 ID in table 2",
    "4 ID carried",
    "5 whole entries",
    "6 most entries of {row}",
    "7 data checksum",
    "8 global checksum",
    "9 bytes",
    "10 end block complete",
    "20 count of {needed}",
    "21 two VLANIDs",
    "22 a port's VLANID",
    "23 SHARINDX",
    "24 sum of PART_SPC",
    "25 two INDEXes",
    "28 VLAN_EGR",
    "28 VLAN_ING",
    "30 count of {row}",
    "30 mark",
    "30 write, count of {row}",
    "30 write, words due",
    "30 write, words placed",
    "31 fresh_ledger",
    "31 judge",
    "31 load_bytes",
    "31 load_words",
    "31 release",
    "31 tile",
    "31 write",
    "32 a write above 64 words",
    "32 a write of 0 words",
    "33 port",
    "34 above 2^48 - 1",
    "34 before the last time",
    "35 bytes of a frame",
    "36 partition",
    "37 units out",
    "38 frames of a port",
    "39 credit",
    "39 credit of no entry",
    "39 dropped octets above 4,100 x drops",
    "39 dropped octets above octets",
    "39 dropped octets below 4 x drops",
    "39 dropped octets of no drops",
    "39 drops above frames",
    "39 last time",
    "39 octets above 4,100 x frames",
    "39 octets below 4 x frames",
    "39 octets of no frames",
    "39 time of a meter",
    "39 time of no entry's meter",
    "39 units",
    "50 mark",
    "51 version",
    "52 cut record",
    "53 kind",
    "54 bytes of a list",
    "drop 1 L",
    "drop 2 INGRESS",
    "drop 3 DRPUNTAG",
    "drop 3 tagged",
    "drop 4 VLAN",
    "drop 5 member",
    "drop 6 DESTPORTS",
    "drop 6 ENFPORT",
    "drop 6 SHARED_LEARN",
    "drop 6 VLAN",
    "drop 6 source",
    "drop 7 SHARINDX",
    "drop 7 k",
    "drop 7 k of a broadcast",
    "drop 8 MAXLEN",
    "drop 9 SMAX",
    "drop 9 credit",
    "drop 9 elapsed",
    "drop 10 EGRESS",
    "drop 10 FL_DOMAIN",
    "drop 10 REACH_PORT",
    "drop 10 VMEMB_PORT",
    "drop 11 units",
    "replica ING_PORT",
    "replica VLAN_ING",
    "replica drop 4 VLAN",
    "replica drop 9 SMAX",
    "replica drop 10 VLAN_BC",
    "replica drop 10 VMEMB_PORT",
    "replica drop 11 units",
];

/// The drops that a replica can have; 4 in edited images only.
pub const REPLICA_DROPS: [u32; 6] = [4, 7, 8, 9, 10, 11];

/// How many replicas a frame past drop 6 has.
pub const HOW_MANY: [&str; 3] = ["no replica", "one replica", "more replicas"];

/// Their names, in this order.
pub fn boundaries() -> Vec<String> {
    let of_id = |name: &str, id: u8| format!("{name}{id:02X}");
    let mut names = Vec::new();
    for name in BOUNDARIES {
        if let Some(name) = name.strip_suffix("{row}") {
            names.extend(ROWS.iter().map(|row| of_id(name, row.id)));
        } else if let Some(name) = name.strip_suffix("{needed}") {
            names.extend(NEEDED.iter().map(|(table, _)| of_id(name, table.id())));
        } else {
            names.push(name.to_string());
        }
    }
    names
}

#[derive(Default)]
pub struct Tally {
    refusals: BTreeMap<u32, u64>,
    drops: BTreeMap<u32, u64>,
    sides: BTreeMap<(String, Side), u64>,
    replica_drops: BTreeMap<u32, u64>,
    /// Frames past drop 6, by how many replicas they have.
    with_replicas: [u64; HOW_MANY.len()],
    loaded: u64,
    sent: u64,
    replicas_sent: u64,
    pub passed: u64,
    pub failures: Vec<String>,
}

impl Tally {
    pub fn refusal(&mut self, number: u32) {
        *self.refusals.entry(number).or_default() += 1;
    }

    pub fn drop(&mut self, number: u32) {
        *self.drops.entry(number).or_default() += 1;
    }

    /// What a frame came to, with its replicas.
    pub fn judged(&mut self, judged: &Judged) {
        match judged.verdict {
            Verdict::Refused(number) => self.refusal(number),
            Verdict::Drop(number) => self.drop(number),
            Verdict::Sent(_) => self.sent += 1,
        }
        if let Verdict::Drop(7..=11) | Verdict::Sent(_) = judged.verdict {
            self.past_drop_6(judged.replicas.len());
        }
        for replica in &judged.replicas {
            match replica {
                Verdict::Drop(number) => self.replica_drop(*number),
                Verdict::Sent(_) => self.replicas_sent += 1,
                Verdict::Refused(number) => {
                    self.failures.push(format!("a replica was refused with {number}"));
                }
            }
        }
    }

    fn replica_drop(&mut self, number: u32) {
        *self.replica_drops.entry(number).or_default() += 1;
    }

    fn past_drop_6(&mut self, replicas: usize) {
        self.with_replicas[replicas.min(HOW_MANY.len() - 1)] += 1;
    }

    pub fn side(&mut self, boundary: &str, side: Side) {
        *self.sides.entry((boundary.to_string(), side)).or_default() += 1;
    }

    /// Counts one check.
    pub fn result(&mut self, result: Result<(), String>) {
        match result {
            Ok(()) => self.passed += 1,
            Err(failure) => self.failures.push(failure),
        }
    }

    /// Runs a case, counts what its lines show and whether it is as expected.
    pub fn run(&mut self, case: &Case) {
        match case.run() {
            Ok(output) => {
                self.count_lines(&output);
                self.passed += 1;
                if let Some((boundary, side)) = &case.side {
                    self.side(boundary, *side);
                }
            }
            Err(failure) => self.failures.push(failure),
        }
    }

    fn count_lines(&mut self, output: &str) {
        // The replicas so far of the last frame, where that is past drop 6.
        let mut replicas: Option<usize> = None;
        for line in output.lines() {
            let words: Vec<&str> = line.split(' ').collect();
            let number = |text: &str| text.parse().unwrap_or(0);
            if words[0] == "replica" {
                replicas = replicas.map(|sofar| sofar + 1);
            } else if let Some(replicas) = replicas.take() {
                self.past_drop_6(replicas);
            }
            match words[..] {
                ["config", "loaded"] => self.loaded += 1,
                ["config" | "list", "refused", told] | ["refused", told] => {
                    self.refusal(number(told));
                }
                ["frame", _, "drop", told] => {
                    self.drop(number(told));
                    replicas = (number(told) > 6).then_some(0);
                }
                ["frame", _, "sent", ..] => {
                    self.sent += 1;
                    replicas = Some(0);
                }
                ["replica", _, "drop", told] => self.replica_drop(number(told)),
                ["replica", _, "sent", ..] => self.replicas_sent += 1,
                _ => {}
            }
        }
    }

    /// What had to be hit and was not.
    pub fn missed(&self) -> Vec<String> {
        let mut missed = Vec::new();
        for number in refusals() {
            if !self.refusals.contains_key(&number) {
                missed.push(format!("refusal {number} was not hit"));
            }
        }
        for number in 1..=11 {
            if !self.drops.contains_key(&number) {
                missed.push(format!("drop {number} was not hit"));
            }
        }
        missed.extend(self.missed_replicas(&REPLICA_DROPS));
        let boundaries = boundaries();
        for boundary in &boundaries {
            for side in [Side::Passes, Side::Refused] {
                if self.hits(boundary, side) == 0 {
                    missed.push(format!("boundary {boundary}: side {side:?} was not hit"));
                }
            }
        }
        for (boundary, _) in self.sides.keys() {
            if !boundaries.contains(boundary) {
                missed.push(format!("boundary {boundary} is not in the list"));
            }
        }
        missed
    }

    /// Of replicas: these drops, sent ones, and frames with none, one and more.
    pub fn missed_replicas(&self, drops: &[u32]) -> Vec<String> {
        let mut missed = Vec::new();
        for number in drops {
            if !self.replica_drops.contains_key(number) {
                missed.push(format!("drop {number} of a replica was not hit"));
            }
        }
        if self.replicas_sent == 0 {
            missed.push("no replica was sent".to_string());
        }
        for (how_many, frames) in HOW_MANY.iter().zip(self.with_replicas) {
            if frames == 0 {
                missed.push(format!("no frame had {how_many}"));
            }
        }
        missed
    }

    fn hits(&self, boundary: &str, side: Side) -> u64 {
        self.sides.get(&(boundary.to_string(), side)).copied().unwrap_or(0)
    }

    pub fn print(&self) {
        println!(
            "loaded {}, frames sent {}, replicas sent {}",
            self.loaded, self.sent, self.replicas_sent
        );
        for (how_many, frames) in HOW_MANY.iter().zip(self.with_replicas) {
            println!("frames with {how_many}: {frames}");
        }
        for (number, hits) in &self.replica_drops {
            println!("drop {number:2} of a replica: {hits}");
        }
        for (number, hits) in &self.refusals {
            println!("refusal {number:2}: {hits}");
        }
        for (number, hits) in &self.drops {
            println!("drop {number:2}: {hits}");
        }
        for boundary in boundaries() {
            println!(
                "boundary {boundary}: {} pass, {} do not",
                self.hits(&boundary, Side::Passes),
                self.hits(&boundary, Side::Refused)
            );
        }
    }
}
