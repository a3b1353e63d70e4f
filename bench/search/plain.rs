// The same search in plain Rust, over plain lists, as a yardstick. `plain make ITEMS OBJECTIVES RULES` prints an
// instance; `plain search --moves M` reads one and prints what `plsnd search --moves M` does.
use std::fmt::Write;
use std::io::Read;

#[derive(Clone, Copy)]
pub struct Sol {
    pub words: [u64; 32],
}

impl Sol {
    pub fn bit(&self, i: usize) -> bool {
        self.words[i / 64] >> (i % 64) & 1 == 1
    }

    fn set(&mut self, i: usize, on: bool) {
        let bit = 1 << (i % 64);
        if on {
            self.words[i / 64] |= bit;
        } else {
            self.words[i / 64] &= !bit;
        }
    }
}

// Places past the objectives are 0.
pub type Vector = [i64; 4];

fn covers(a: &Vector, b: &Vector) -> bool {
    ((a[0] - b[0]) | (a[1] - b[1]) | (a[2] - b[2]) | (a[3] - b[3])) >= 0
}

#[derive(Clone, Copy)]
struct Point {
    value: Vector,
    sol: Sol,
}

#[derive(Clone, Copy, Default)]
pub struct Amounts {
    profits: [u32; 4],
    weights: [u32; 8],
}

pub struct Knapsack {
    pub objectives: usize,
    capacities: [u32; 8],
    pub table: Vec<Amounts>,
}

#[derive(Clone, Copy)]
pub struct Tally {
    sol: Sol,
    pub values: [u32; 4],
    rooms: [u32; 8],
}

pub struct Walk {
    start: Tally,
    flip: usize,
    reduced: Tally,
    put: usize,
    take: usize,
    item: usize,
    is_flip: bool,
}

fn add<const N: usize>(sums: &mut [u32; N], amounts: &[u32; N]) {
    for (sum, amount) in sums.iter_mut().zip(amounts) {
        *sum += amount;
    }
}

fn subtract<const N: usize>(sums: &mut [u32; N], amounts: &[u32; N]) {
    for (sum, amount) in sums.iter_mut().zip(amounts) {
        *sum -= amount;
    }
}

fn fit(weights: &[u32; 8], rooms: &[u32; 8]) -> bool {
    rooms.iter().zip(weights).fold(0, |all, (room, weight)| all | room.wrapping_sub(*weight)) < 1 << 31
}

impl Knapsack {
    pub fn read(text: &str) -> Knapsack {
        let mut words = text.split_ascii_whitespace();
        assert_eq!((words.next(), words.next()), (Some("pls1"), Some("knapsack")));
        let mut number = || words.next().unwrap().parse::<u32>().unwrap();
        let (objectives, items, rules) = (number() as usize, number() as usize, number() as usize);
        let mut k = Knapsack { objectives, capacities: [0; 8], table: vec![Amounts::default(); items] };
        for row in 0..rules {
            k.capacities[row] = number();
        }
        for row in 0..objectives {
            for item in 0..items {
                k.table[item].profits[row] = number();
            }
        }
        for row in 0..rules {
            for item in 0..items {
                k.table[item].weights[row] = number();
            }
        }
        k
    }

    pub fn tally(&self, sol: &Sol) -> Tally {
        let mut tally = Tally { sol: *sol, values: [0; 4], rooms: self.capacities };
        for (item, amounts) in self.table.iter().enumerate() {
            if sol.bit(item) {
                add(&mut tally.values, &amounts.profits);
                subtract(&mut tally.rooms, &amounts.weights);
            }
        }
        tally
    }

    pub fn greedy(&self, order: &[usize]) -> Sol {
        let mut sol = Sol { words: [0; 32] };
        let mut rooms = self.capacities;
        for item in order {
            if fit(&self.table[*item].weights, &rooms) {
                subtract(&mut rooms, &self.table[*item].weights);
                sol.set(*item, true);
            }
        }
        sol
    }

    pub fn walk(&self, sol: &Sol) -> Walk {
        let start = self.tally(sol);
        Walk { start, flip: 0, reduced: start, put: self.table.len(), take: 0, item: 0, is_flip: true }
    }

    fn find(&self, walk: &mut Walk) -> Option<(bool, usize)> {
        while walk.flip < self.table.len() {
            let item = walk.flip;
            walk.flip += 1;
            if walk.start.sol.bit(item) || fit(&self.table[item].weights, &walk.start.rooms) {
                return Some((true, item));
            }
        }
        loop {
            while walk.put < self.table.len() {
                let item = walk.put;
                walk.put += 1;
                if !walk.start.sol.bit(item) && fit(&self.table[item].weights, &walk.reduced.rooms) {
                    return Some((false, item));
                }
            }
            if walk.take == self.table.len() {
                return None;
            }
            let item = walk.take;
            walk.take += 1;
            if walk.start.sol.bit(item) {
                walk.reduced = walk.start;
                subtract(&mut walk.reduced.values, &self.table[item].profits);
                add(&mut walk.reduced.rooms, &self.table[item].weights);
                walk.reduced.sol.set(item, false);
                walk.put = 0;
            }
        }
    }

    pub fn next_value(&self, walk: &mut Walk) -> Option<Vector> {
        let (is_flip, item) = self.find(walk)?;
        walk.is_flip = is_flip;
        walk.item = item;
        let tally = if is_flip { &walk.start } else { &walk.reduced };
        let mut values = tally.values;
        if tally.sol.bit(item) {
            subtract(&mut values, &self.table[item].profits);
        } else {
            add(&mut values, &self.table[item].profits);
        }
        Some(values.map(i64::from))
    }

    pub fn solution(&self, walk: &Walk) -> Sol {
        let base = if walk.is_flip { &walk.start.sol } else { &walk.reduced.sol };
        let mut sol = *base;
        sol.set(walk.item, !base.bit(walk.item));
        sol
    }

    /// The items that a choice has.
    pub fn chosen(&self, sol: &Sol) -> Vec<usize> {
        (0..self.table.len()).filter(|item| sol.bit(*item)).collect()
    }
}

// Xoshiro256++, seeded by SplitMix64.
pub struct Words([u64; 4]);

impl Words {
    pub fn seeded(mut seed: u64) -> Words {
        Words([0; 4].map(|_: u64| {
            seed = seed.wrapping_add(0x9e37_79b9_7f4a_7c15);
            let z = (seed ^ seed >> 30).wrapping_mul(0xbf58_476d_1ce4_e5b9);
            let z = (z ^ z >> 27).wrapping_mul(0x94d0_49bb_1331_11eb);
            z ^ z >> 31
        }))
    }

    pub fn next(&mut self) -> u64 {
        let s = &mut self.0;
        let word = s[0].wrapping_add(s[3]).rotate_left(23).wrapping_add(s[0]);
        let t = s[1] << 17;
        s[2] ^= s[0];
        s[3] ^= s[1];
        s[1] ^= s[2];
        s[0] ^= s[3];
        s[2] ^= t;
        s[3] = s[3].rotate_left(45);
        word
    }
}

/// The order 0, 1, .., shuffled from the least place on.
pub fn shuffled(words: &mut Words, size: usize, least: usize) -> Vec<usize> {
    let mut order: Vec<usize> = (0..size).collect();
    for left in (1..size - least).rev() {
        order.swap(least + left, least + (words.next() % (left as u64 + 1)) as usize);
    }
    order
}

#[derive(Default)]
pub struct Counts {
    pub explored: u64,
    pub evaluated: u64,
    pub accepted: u64,
}

/// The text of a search, from the value of each member and what its solution shows.
pub fn text(kind: &str, objectives: usize, mut front: Vec<(Vector, Vec<usize>)>, whole: bool, counts: &Counts) -> String {
    front.sort_by_key(|member| member.0);
    let mut text = format!("front {} {kind} {objectives}\n", front.len());
    for (value, shown) in &front {
        // Costs are negative here.
        for part in &value[..objectives] {
            write!(text, "{} ", part.abs()).unwrap();
        }
        text.push(':');
        if shown.is_empty() {
            text.push_str(" -");
        }
        for number in shown {
            write!(text, " {number}").unwrap();
        }
        text.push('\n');
    }
    let end = if whole { "closed" } else { "stopped" };
    let Counts { explored, evaluated, accepted } = counts;
    writeln!(text, "end {end} explored {explored} evaluated {evaluated} accepted {accepted}").unwrap();
    text
}

fn search(k: &Knapsack, moves: u64) -> String {
    let start = k.greedy(&shuffled(&mut Words::seeded(1), k.table.len(), 0));
    let first = Point { value: k.tally(&start).values.map(i64::from), sol: start };
    let (mut archive, mut tasks) = (vec![first], vec![first]);
    let (mut left, mut explored, mut next, mut whole) = (moves, 0, 0, true);
    'tasks: while next < tasks.len() {
        let task = tasks[next];
        next += 1;
        if !archive.iter().any(|point| point.value == task.value) {
            continue;
        }
        let mut walk = k.walk(&task.sol);
        while let Some(value) = k.next_value(&mut walk) {
            if left == 0 {
                whole = false;
                break 'tasks;
            }
            left -= 1;
            if !archive.iter().any(|point| covers(&point.value, &value)) {
                archive.retain(|point| !covers(&value, &point.value));
                let point = Point { value, sol: k.solution(&walk) };
                archive.push(point);
                tasks.push(point);
            }
        }
        explored += 1;
    }
    let front = archive.iter().map(|point| (point.value, k.chosen(&point.sol))).collect();
    let counts = Counts { explored, evaluated: moves - left, accepted: tasks.len() as u64 };
    text("knapsack", k.objectives, front, whole, &counts)
}

// An instance of which about half the items fit.
fn make(items: usize, objectives: usize, rules: usize) -> String {
    let mut words = Words::seeded(2);
    let mut text = format!("pls1 knapsack {objectives} {items} {rules}\n");
    for row in 0..1 + objectives + rules {
        for _ in 0..if row == 0 { rules } else { items } {
            let more = if row == 0 { 250 * items as u64 } else { 0 };
            write!(text, "{} ", words.next() % 1000 + 1 + more).unwrap();
        }
        text.push('\n');
    }
    text
}

fn main() {
    let words: Vec<String> = std::env::args().skip(1).collect();
    let number = |at: usize| words[at].parse().unwrap();
    if words[0] == "make" {
        print!("{}", make(number(1), number(2), number(3)));
        return;
    }
    let mut text = String::new();
    std::io::stdin().read_to_string(&mut text).unwrap();
    print!("{}", search(&Knapsack::read(&text), number(2) as u64));
}
