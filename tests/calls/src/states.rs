//! The two forms of a load state beside each other: which of the second program's states a struct of numbers is.

use cases::rng::Rng;
use reference::load::{LoadAnswer, LoadState, Phase};
use reference::tables::ROWS;

use tailbow::raw::{FlatLoad, MORE};

const PHASES: u32 = 6;
pub const FRESH: u32 = 0;
pub const DATA: u32 = 4;
pub const TOLD: u32 = 5;

/// Numbers that no phase has, and numbers that no table has.
pub const NO_PHASES: [u32; 5] = [PHASES, PHASES + 1, 255, 1 << 31, u32::MAX];
pub const NO_TABLES: [u32; 5] = [ROWS.len() as u32, ROWS.len() as u32 + 1, 255, 1 << 31, u32::MAX];

/// An answer by its number.
pub fn number_of(answer: LoadAnswer) -> u32 {
    match answer {
        LoadAnswer::More => MORE,
        LoadAnswer::Loaded => 0,
        LoadAnswer::Refused(number) => number,
    }
}

/// The phase is in range, in the data phase the table is, and "more" was not told; nothing else can make it no state (D62).
pub fn is_state(flat: &FlatLoad) -> bool {
    match flat.phase {
        DATA => (flat.table as usize) < ROWS.len(),
        TOLD => flat.told != MORE,
        phase => phase < PHASES,
    }
}

/// The second program's state for these numbers, which are a state's.
pub fn state_of(flat: &FlatLoad) -> LoadState {
    let fresh = LoadState::fresh();
    let begun = LoadState {
        begun: true,
        placed: flat.placed,
        due: flat.due,
        header: [flat.first, flat.second],
        data_register: flat.block,
        global_register: flat.stream,
        ..fresh
    };
    match flat.phase {
        FRESH => fresh,
        1 => LoadState { phase: Phase::BlockId, ..begun },
        2 => LoadState { phase: Phase::Length, ..begun },
        3 => LoadState { phase: Phase::HeaderChecksum, ..begun },
        // Here alone the table is part of the state.
        DATA => LoadState { phase: Phase::Data, table: ROWS[flat.table as usize].table, ..begun },
        _ => LoadState { answer: Some(told(flat.told)), ..begun },
    }
}

fn told(number: u32) -> LoadAnswer {
    match number {
        0 => LoadAnswer::Loaded,
        number => LoadAnswer::Refused(number),
    }
}

/// What later writes can read of a state: nothing that its phase does not need.
pub fn meaning(state: &LoadState) -> LoadState {
    let fresh = LoadState::fresh();
    if !state.begun {
        return fresh;
    }
    let begun = LoadState { begun: true, ..fresh };
    if state.answer.is_some() {
        return LoadState { answer: state.answer, ..begun };
    }
    let [first, second] = state.header;
    let begun = LoadState { phase: state.phase, global_register: state.global_register, ..begun };
    match state.phase {
        Phase::DeviceId | Phase::BlockId => begun,
        Phase::Length => LoadState { header: [first, 0], ..begun },
        Phase::HeaderChecksum => LoadState { header: [first, second], ..begun },
        // The checksum is due where no data word is, in either form.
        Phase::Data | Phase::DataChecksum => LoadState {
            phase: Phase::Data,
            table: state.table,
            placed: state.placed,
            due: state.due,
            data_register: state.data_register,
            ..begun
        },
    }
}

/// The number of a state's phase.
fn phase_of(state: &LoadState) -> u32 {
    if state.answer.is_some() {
        return TOLD;
    }
    match state.phase {
        Phase::DeviceId => FRESH,
        Phase::BlockId => 1,
        Phase::Length => 2,
        Phase::HeaderChecksum => 3,
        Phase::Data | Phase::DataChecksum => DATA,
    }
}

/// The told answer and the table that stand in the numbers after a write that came to this state. Each is written where that state has it,
/// the answer in the last phase and the table in the data phase. Everywhere else the told answer stays as it stood before the write; the
/// table stays where the phase is the one before the write, and is 0 where the phase has moved (D62).
pub fn told_and_table(before: &FlatLoad, after: &LoadState) -> (u32, u32) {
    let told = after.answer.map_or(before.told, number_of);
    let table = match phase_of(after) {
        DATA => after.table.place() as u32,
        phase if phase == before.phase => before.table,
        _ => 0,
    };
    (told, table)
}

/// The numbers after an answer: all 0 but for the phase and the answer.
pub fn answered(number: u32) -> FlatLoad {
    FlatLoad { phase: TOLD, told: number, ..FlatLoad::default() }
}

/// A fresh load among any numbers: a first write reads the phase and nothing else.
pub fn fresh_among_any(rng: &mut Rng) -> FlatLoad {
    FlatLoad {
        phase: FRESH,
        told: any_told(rng),
        table: any_table(rng),
        placed: rng.next(),
        due: rng.next(),
        first: rng.word(),
        second: rng.word(),
        stream: rng.word(),
        block: rng.word(),
    }
}

/// A number that may stand for the told answer before the last phase.
pub fn any_told(rng: &mut Rng) -> u32 {
    rng.pick(&[0, 1, 25, 30, 31, 32, 77, MORE - 1, MORE])
}

/// A number that may stand for the table outside the data phase: a table's, or one that no table has.
pub fn any_table(rng: &mut Rng) -> u32 {
    if rng.once_in(2) {
        return rng.pick(&NO_TABLES);
    }
    rng.place(ROWS.len()) as u32
}

/// One random edit that leaves a state.
pub fn edited(rng: &mut Rng, flat: &FlatLoad) -> FlatLoad {
    let mut edited = *flat;
    let row = ROWS.get(flat.table as usize).unwrap_or(&ROWS[0]);
    let room = (row.words * row.most) as u64;
    let words = row.words as u64;
    match rng.below(9) {
        0 => edited.placed = rng.pick(&[0, 1, words, room - words, room, room + 1, u64::MAX]),
        1 => edited.due = rng.pick(&[0, 1, words, room - words, room, room + 1, u64::MAX]),
        2 => edited.phase = rng.below(u64::from(PHASES)) as u32,
        3 => edited.table = any_table(rng),
        4 => edited.stream = rng.word(),
        5 => edited.block = rng.word(),
        6 => (edited.first, edited.second) = (rng.word(), rng.word()),
        7 => edited.told = any_told(rng),
        // A block of another table, anywhere in it.
        _ => {
            let row = &ROWS[rng.place(ROWS.len())];
            let room = (row.words * row.most) as u64;
            edited.phase = DATA;
            edited.table = row.table.place() as u32;
            edited.placed = rng.below(room + 1);
            edited.due = rng.below(room - edited.placed + 2);
        }
    }
    // What the phase reads now must be a state's.
    match edited.phase {
        DATA if !is_state(&edited) => edited.table = rng.place(ROWS.len()) as u32,
        TOLD if !is_state(&edited) => edited.told = MORE - 1,
        _ => {}
    }
    edited
}

/// Numbers that no state has: a phase out of range, a table out of range in a block, or "more" as the answer that was told.
pub fn stateless(rng: &mut Rng, flat: &FlatLoad) -> FlatLoad {
    let mut edited = FlatLoad { table: any_table(rng), told: any_told(rng), ..*flat };
    match rng.below(3) {
        0 => edited.phase = rng.pick(&NO_PHASES),
        1 => (edited.phase, edited.table) = (DATA, rng.pick(&NO_TABLES)),
        _ => (edited.phase, edited.told) = (TOLD, MORE),
    }
    edited
}
