//! Edited images, ledgers and load states: what no load gives, for the refusals of calls.

use reference::image::{count, count_place, start_of, FIRST_COUNT, IMAGE_WORDS, MARK};
use reference::ledger::{most_credit, most_units, Ledger, LAST_TIME};
use reference::load::{LoadAnswer, LoadState, Phase};
use reference::tables::{policing, put_field, retagging, vlan_lookup, Field, Table, ROWS};

use crate::rng::Rng;

/// One random edit of an image, also of its length.
pub fn edited_image(rng: &mut Rng, image: &[u32]) -> Vec<u32> {
    let mut edited = image.to_vec();
    match rng.below(10) {
        0 => edited[MARK] = rng.pick(&[0, 2, 0x0100_0000, u32::MAX]),
        1 => {
            let row = &ROWS[rng.place(ROWS.len())];
            let most = row.most as u32;
            edited[count_place(row.table)] = rng.pick(&[0, 1, most - 1, most, most + 1, u32::MAX]);
        }
        2 => edited.truncate(rng.pick(&[0, 1, MARK, IMAGE_WORDS - 1])),
        3 => edited.extend([0xDEAD_BEEF, 0]),
        4 => put_shared(rng, &mut edited),
        5 => put_twin_vlan(rng, &mut edited),
        6 => put_retagging(rng, &mut edited),
        // No VLAN that frames and tables have: what was there is gone.
        7 => put_value(&mut edited, vlan_lookup::VLANID, rng.place(4), 9),
        8 => {
            let place = rng.place(FIRST_COUNT);
            edited[place] = rng.word();
        }
        _ => {
            let place = MARK + 1 + rng.place(IMAGE_WORDS - MARK - 1);
            edited[place] = rng.word();
        }
    }
    edited
}

/// A field of one entry put to this value, whether a load gives it or not.
pub(crate) fn put_value(image: &mut [u32], field: Field, number: usize, value: u64) {
    let first = start_of(field.table) + number * field.table.words();
    put_field(&mut image[first..first + field.table.words()], field, value);
}

/// SHARINDX of some entry at any of its 64 values.
fn put_shared(rng: &mut Rng, image: &mut [u32]) {
    let number = rng.place(Table::L2Policing.most());
    let shared = rng.below(64);
    put_value(image, policing::SHARINDX, number, shared);
}

/// Two VLAN entries with one VLANID.
fn put_twin_vlan(rng: &mut Rng, image: &mut [u32]) {
    let number = rng.place(4);
    let vlan = rng.pick(&crate::generate::VLANS);
    put_value(image, vlan_lookup::VLANID, number, vlan);
    let entries = count(image, Table::VlanLookup) as u32;
    image[count_place(Table::VlanLookup)] = entries.max(4);
}

/// An entry of 12 on any VLANs, there or not, and a count that reads it.
fn put_retagging(rng: &mut Rng, image: &mut [u32]) {
    let number = rng.place(Table::Retagging.most());
    let (ports, vlans) = (rng.below(32), &crate::generate::VLANS);
    put_value(image, retagging::ING_PORT, number, ports);
    put_value(image, retagging::VLAN_ING, number, rng.pick(vlans));
    put_value(image, retagging::VLAN_EGR, number, rng.pick(vlans));
    let place = count_place(Table::Retagging);
    image[place] = image[place].max(number as u32 + 1);
}

/// One random edit of a ledger, at and around the bounds of refusal 39. The image is a loaded one.
pub fn edited_ledger(rng: &mut Rng, image: &[u32], ledger: &Ledger) -> Ledger {
    let mut edited = *ledger;
    let partition = rng.place(8);
    let meter = rng.place(45);
    let port = rng.place(5);
    let around = |rng: &mut Rng, value: u64| match rng.below(4) {
        0 => value.wrapping_sub(1),
        1 => value,
        2 => value.wrapping_add(1),
        _ => rng.pick(&[0, u64::MAX]),
    };
    match rng.below(9) {
        0 => edited.units[partition] = around(rng, most_units(image, partition)),
        1 => edited.meters[meter].credit = around(rng, most_credit(image, meter)),
        2 => edited.meters[meter].time = around(rng, ledger.last_time),
        3 => edited.last_time = around(rng, LAST_TIME),
        4 => edited.ports[port].drops = around(rng, ledger.ports[port].frames),
        5 => edited.ports[port].octets = around(rng, 4 * (ledger.ports[port].frames % (1 << 60))),
        6 => {
            let most = (ledger.ports[port].frames % (1 << 50)) * 4100;
            edited.ports[port].octets = around(rng, most);
        }
        7 => edited.ports[port].dropped_octets = around(rng, ledger.ports[port].octets),
        _ => {
            // Many frames: 38, in a ledger that is in range.
            let frames = (1 << 32) - rng.between(1, 3);
            edited.ports[port].frames = frames;
            edited.ports[port].octets = 64 * frames;
            edited.ports[port].drops = rng.below(2);
            edited.ports[port].dropped_octets = 64 * edited.ports[port].drops;
        }
    }
    edited
}

/// One random edit of a load state.
pub(crate) fn edited_state(rng: &mut Rng, state: &LoadState) -> LoadState {
    let mut edited = *state;
    let room = (state.table.words() * state.table.most()) as u64;
    match rng.below(8) {
        0 => edited.placed = rng.pick(&[0, 1, room, room + 1, u64::MAX]),
        1 => edited.due = rng.pick(&[0, 1, room, room + 1, u64::MAX]),
        2 => {
            edited.phase = rng.pick(&[
                Phase::DeviceId,
                Phase::BlockId,
                Phase::Length,
                Phase::HeaderChecksum,
                Phase::Data,
                Phase::DataChecksum,
            ]);
        }
        3 => edited.table = ROWS[rng.place(ROWS.len())].table,
        4 => {
            edited.data_register = rng.word();
            edited.global_register = rng.word();
        }
        5 => edited.header = [rng.word(), rng.word()],
        6 => edited.begun = !edited.begun,
        _ => {
            let number = rng.pick(&[1, 7, 8, 20, 25, 28]);
            edited.answer =
                rng.pick(&[None, Some(LoadAnswer::Loaded), Some(LoadAnswer::Refused(number))]);
        }
    }
    edited
}
