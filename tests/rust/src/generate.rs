//! Patterns and logs that are accepted, of all shapes up to the limits.

use crate::log::{Log, Step, MOST_LINKS};
use crate::pattern::{Bead, Pattern, Rule, State};
use crate::random::Random;

/// A pattern with this many labels and beads; the states of each bead are drawn from the numbers given.
pub fn pattern(random: &mut Random, labels: usize, beads: usize, states: &[usize]) -> Pattern {
    let rules = random.pick(&[[Rule::Some, Rule::All], [Rule::All, Rule::Some]]);
    let bead = |b: usize| {
        let states = random.pick(states);
        bead(random, rules[b % 2], labels, states)
    };
    Pattern { labels, beads: (0..beads).map(bead).collect() }
}

fn bead(random: &mut Random, rule: Rule, labels: usize, states: usize) -> Bead {
    // Many final states let ALL hold, few make SOME rare: both are wanted.
    let finals = random.pick(&[20, 50, 80, 95]);
    let density = random.pick(&[5, 20, 50, 100]);
    let stays = random.pick(&[0, 50, 90]);
    let next = |random: &mut Random, q: usize| match rule {
        Rule::Some => random.set(states, density),
        Rule::All if random.percent(stays) => 1 << q,
        Rule::All => 1 << random.below(states),
    };
    let state = |q: usize| State { is_final: random.percent(finals), next: (0..labels).map(|_| next(random, q)).collect() };
    Bead { rule, states: (0..states).map(state).collect() }
}

/// Distinct label names. A word of the header is as good as any.
pub fn names(random: &mut Random, labels: usize) -> Vec<String> {
    let mut names: Vec<String> = Vec::new();
    while names.len() < labels {
        let length = random.pick(&[1, 2, 3, 4, 8, 12]);
        let mut name: String = (0..length).map(|_| random.pick(b"abcdefghijklmnopqrstuvwxyz0123456789") as char).collect();
        if random.percent(3) {
            name = random.pick(&["bead", "rule", "state", "final"]).to_string();
        }
        if !names.contains(&name) {
            names.push(name);
        }
    }
    names
}

/// How a log's links and labels are drawn.
pub struct Shape {
    /// The most links a step, and how far back they go.
    pub links: usize,
    pub back: usize,
    /// Whether every step has as many links as it can.
    pub full: bool,
    /// The most links in all.
    pub total: usize,
    /// Chances in percent: of a step without labels, and of each label where there are some.
    pub bare: usize,
    pub density: usize,
}

pub fn shape(random: &mut Random) -> Shape {
    Shape {
        links: random.within(1, 8),
        back: random.pick(&[1, 2, 4, 10, 2_000]),
        full: random.percent(20),
        total: MOST_LINKS,
        bare: random.pick(&[0, 10, 50, 95]),
        density: random.pick(&[0, 20, 60, 100]),
    }
}

/// A log with this many steps. It is accepted if they and the shape keep to the limits.
pub fn log(random: &mut Random, steps: usize, labels: usize, shape: &Shape) -> Log {
    let mut log = Log { steps: vec![Step { board: random.below(256) as u16, labels: 0, links: Vec::new() }] };
    let mut left = shape.total;
    for v in 1..steps {
        let back = shape.back.min(v);
        // One link is kept for each step to come.
        let most = shape.links.min(back).min(left - (steps - 1 - v));
        let count = if shape.full { most } else { random.within(1, most) };
        left -= count;
        let labels = if random.percent(shape.bare) { 0 } else { random.set(labels, shape.density) | 1 << random.below(labels) };
        log.steps.push(Step { board: random.below(256) as u16, labels, links: links(random, v, back, count) });
    }
    log
}

/// So many numbers among those just below v, rising.
fn links(random: &mut Random, v: usize, back: usize, count: usize) -> Vec<u16> {
    let mut links = Vec::new();
    while links.len() < count {
        let link = (v - 1 - random.below(back)) as u16;
        if !links.contains(&link) {
            links.push(link);
        }
    }
    links.sort();
    links
}

/// An order of the log's four columns.
pub fn order(random: &mut Random) -> [usize; 4] {
    let mut order = [0, 1, 2, 3];
    for i in (1..4).rev() {
        order.swap(i, random.below(i + 1));
    }
    order
}
