//! The reference judge: forward from each starting pivot, one set of states a step. (The library goes forward from sixteen at once.)

use crate::log::Log;
use crate::pattern::{Bead, Pattern, Rule};

pub const RESULT_LENGTH: usize = 10_240;
pub const WORK_LENGTH: usize = 16_384;
pub const ROW_LENGTH: usize = 10;

pub type Row = [u16; ROW_LENGTH];

/// The row of each step: the set of prefixes that hold, then, if the whole pattern holds, its pivots.
pub fn rows(pattern: &Pattern, log: &Log) -> Vec<Row> {
    let steps = log.steps.len();
    // holds[k][v]: the first k beads hold at v. The first none hold at step 0 alone, where the first pivot is.
    let mut holds = vec![(0..steps).map(|v| v == 0).collect::<Vec<bool>>()];
    // reaches[k][u][v]: bead k + 1 holds on (u, v); only for the steps u at which the first k beads hold.
    let mut reaches = Vec::new();
    for bead in &pattern.beads {
        let before = holds.last().unwrap();
        let moves = moves(bead, log);
        let reach: Vec<Vec<bool>> =
            (0..steps).map(|u| if before[u] { verdicts(bead, &moves, log, u) } else { vec![false; steps] }).collect();
        holds.push((0..steps).map(|v| reach.iter().any(|from| from[v])).collect());
        reaches.push(reach);
    }
    (0..steps).map(|v| row(&holds, &reaches, v)).collect()
}

fn row(holds: &[Vec<bool>], reaches: &[Vec<Vec<bool>>], v: usize) -> Row {
    let beads = reaches.len();
    let mut row = [0; ROW_LENGTH];
    row[0] = (1..=beads).filter(|&k| holds[k][v]).map(|k| 1 << (k - 1)).sum();
    if holds[beads][v] {
        let mut pivot = v;
        row[1 + beads] = pivot as u16;
        for k in (0..beads).rev() {
            // reaches[k] has only steps at which the first k beads hold.
            pivot = (0..=pivot).find(|&u| reaches[k][u][pivot]).expect("the first k + 1 beads hold at the pivot");
            row[1 + k] = pivot as u16;
        }
    }
    row
}

/// For each step and state the states that entering the step leads to. A step without labels leaves the state as it is.
fn moves(bead: &Bead, log: &Log) -> Vec<Vec<u16>> {
    let enter = |labels: u16, q: usize| match labels {
        0 => 1 << q,
        _ => (0..16).filter(|a| labels >> a & 1 == 1).fold(0, |set, a| set | bead.states[q].next[a]),
    };
    log.steps.iter().map(|step| (0..bead.states.len()).map(|q| enter(step.labels, q)).collect()).collect()
}

/// For each step v whether the bead holds on (start, v).
fn verdicts(bead: &Bead, moves: &[Vec<u16>], log: &Log, start: usize) -> Vec<bool> {
    let finals = bead.states.iter().enumerate().map(|(q, state)| (state.is_final as u16) << q).sum::<u16>();
    // The states in which some reading of some route from the start can end; nothing where no route leads. The start has a route to
    // itself, on which nothing is read.
    let mut ends: Vec<Option<u16>> = vec![None; log.steps.len()];
    ends[start] = Some(1);
    for v in start + 1..log.steps.len() {
        let came = log.steps[v].links.iter().filter_map(|&u| ends[u as usize]).reduce(|a, b| a | b);
        ends[v] = came.map(|set| (0..bead.states.len()).filter(|q| set >> q & 1 == 1).fold(0, |to, q| to | moves[v][q]));
    }
    let holds = |ends: Option<u16>| match (ends, bead.rule) {
        (None, _) => false,
        (Some(set), Rule::Some) => set & finals != 0,
        // Each reading ends in exactly one state (refusal 16 sees to that): all are words if no other state is reached.
        (Some(set), Rule::All) => set & !finals == 0,
    };
    ends.into_iter().map(holds).collect()
}

/// Whether the bead holds on (u, v), by writing out every reading of every route: the definition itself, for small logs.
pub fn holds_by_readings(bead: &Bead, log: &Log, u: usize, v: usize) -> bool {
    let readings = readings(log, u, v);
    match bead.rule {
        Rule::Some => readings.iter().any(|word| is_word(bead, 0, word)),
        Rule::All => !readings.is_empty() && readings.iter().all(|word| is_word(bead, 0, word)),
    }
}

/// The readings of all routes from u to v. A step without labels gives the empty letter. One route leads from a step to itself, with no
/// link: its reading is the empty word.
fn readings(log: &Log, u: usize, v: usize) -> Vec<Vec<usize>> {
    if u == v {
        return vec![Vec::new()];
    }
    let labels = log.steps[v].labels;
    let mut all = Vec::new();
    for &link in log.steps[v].links.iter().filter(|&&link| link as usize >= u) {
        for word in readings(log, u, link as usize) {
            match labels {
                0 => all.push(word),
                _ => all.extend((0..16).filter(|a| labels >> a & 1 == 1).map(|a| [&word[..], &[a]].concat())),
            }
        }
    }
    all
}

/// Whether some run over the word from this state ends in a final state.
fn is_word(bead: &Bead, state: usize, word: &[usize]) -> bool {
    match word.split_first() {
        None => bead.states[state].is_final,
        Some((&label, rest)) => (0..bead.states.len()).any(|q| bead.states[state].next[label] >> q & 1 == 1 && is_word(bead, q, rest)),
    }
}

/// The verdict of the forward judge on (u, v), for comparing the two.
pub fn holds_forward(bead: &Bead, log: &Log, u: usize, v: usize) -> bool {
    verdicts(bead, &moves(bead, log), log, u)[v]
}
