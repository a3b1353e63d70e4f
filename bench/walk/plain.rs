// The same walk in plain Rust, as a yardstick: the value of a neighbour first, its solution on demand, and a
// table of what each item has in each row.
use std::time::Instant;

const NEIGHBOURS: u32 = 100_000;

#[derive(Clone, Copy)]
struct Sol {
    len: usize,
    words: [u64; 32],
}

impl Sol {
    fn bit(&self, i: usize) -> bool {
        self.words[i / 64] >> (i % 64) & 1 == 1
    }

    fn set(&mut self, i: usize, on: bool) {
        let bit = 1 << (i % 64);
        if on {
            self.words[i / 64] |= bit;
        } else {
            self.words[i / 64] &= !bit;
        }
    }
}

#[derive(Clone, Copy)]
struct Vector {
    len: usize,
    parts: [i64; 4],
}

impl Vector {
    fn covers(&self, other: &Vector) -> bool {
        let (a, b) = (&self.parts, &other.parts);
        self.len == other.len && ((a[0] - b[0]) | (a[1] - b[1]) | (a[2] - b[2]) | (a[3] - b[3])) >= 0
    }
}

#[derive(Clone, Copy, Default)]
struct Amounts {
    profits: [u32; 4],
    weights: [u32; 8],
}

struct Knapsack {
    objectives: usize,
    capacities: [u32; 8],
    table: Vec<Amounts>,
}

#[derive(Clone, Copy)]
struct Tally {
    sol: Sol,
    values: [u32; 4],
    rooms: [u32; 8],
}

struct Walk {
    start: Tally,
    flip: usize,
    reduced: Tally,
    put: usize,
    take: usize,
    item: usize,
    is_flip: bool,
}

fn add<const N: usize>(sums: &mut [u32; N], amounts: &[u32; N]) {
    for (sum, amount) in sums.iter_mut().zip(amounts) {
        *sum += amount;
    }
}

fn subtract<const N: usize>(sums: &mut [u32; N], amounts: &[u32; N]) {
    for (sum, amount) in sums.iter_mut().zip(amounts) {
        *sum -= amount;
    }
}

fn fit(weights: &[u32; 8], rooms: &[u32; 8]) -> bool {
    rooms.iter().zip(weights).fold(0, |all, (room, weight)| all | room.wrapping_sub(*weight)) < 1 << 31
}

impl Knapsack {
    fn vector(&self, values: &[u32; 4]) -> Vector {
        Vector { len: self.objectives, parts: values.map(i64::from) }
    }

    fn tally(&self, sol: &Sol) -> Tally {
        let mut tally = Tally { sol: *sol, values: [0; 4], rooms: self.capacities };
        for (item, amounts) in self.table.iter().enumerate() {
            if sol.bit(item) {
                add(&mut tally.values, &amounts.profits);
                subtract(&mut tally.rooms, &amounts.weights);
            }
        }
        tally
    }

    fn walk(&self, sol: &Sol) -> Walk {
        let start = self.tally(sol);
        Walk { start, flip: 0, reduced: start, put: self.table.len(), take: 0, item: 0, is_flip: true }
    }

    /// The item of the next neighbour, and whether it is flipped in the start or put into the reduced choice.
    fn find(&self, walk: &mut Walk) -> Option<(bool, usize)> {
        while walk.flip < self.table.len() {
            let item = walk.flip;
            walk.flip += 1;
            if walk.start.sol.bit(item) || fit(&self.table[item].weights, &walk.start.rooms) {
                return Some((true, item));
            }
        }
        loop {
            while walk.put < self.table.len() {
                let item = walk.put;
                walk.put += 1;
                if !walk.start.sol.bit(item) && fit(&self.table[item].weights, &walk.reduced.rooms) {
                    return Some((false, item));
                }
            }
            if walk.take == self.table.len() {
                return None;
            }
            let item = walk.take;
            walk.take += 1;
            if walk.start.sol.bit(item) {
                walk.reduced = walk.start;
                subtract(&mut walk.reduced.values, &self.table[item].profits);
                add(&mut walk.reduced.rooms, &self.table[item].weights);
                walk.reduced.sol.set(item, false);
                walk.put = 0;
            }
        }
    }

    fn next_value(&self, walk: &mut Walk) -> Option<Vector> {
        let (is_flip, item) = self.find(walk)?;
        walk.is_flip = is_flip;
        walk.item = item;
        let tally = if is_flip { &walk.start } else { &walk.reduced };
        let mut values = tally.values;
        if tally.sol.bit(item) {
            subtract(&mut values, &self.table[item].profits);
        } else {
            add(&mut values, &self.table[item].profits);
        }
        Some(self.vector(&values))
    }

    fn solution(&self, walk: &Walk, into: &mut Sol) {
        let base = if walk.is_flip { &walk.start.sol } else { &walk.reduced.sol };
        *into = *base;
        into.set(walk.item, !base.bit(walk.item));
    }
}

fn numbers(count: usize, seed: u64, more: u32) -> Vec<u32> {
    let mut state = seed;
    (0..count)
        .map(|_| {
            state = state.wrapping_mul(6364136223846793005).wrapping_add(1442695040888963407);
            (state >> 33) as u32 % 1000 + 1 + more
        })
        .collect()
}

fn instance(items: usize, objectives: usize, rules: usize) -> Knapsack {
    let profits = numbers(objectives * items, 1, 0);
    let weights = numbers(rules * items, 2, 0);
    let mut capacities = [0; 8];
    capacities[..rules].copy_from_slice(&numbers(rules, 3, 250 * items as u32));
    let mut table = vec![Amounts::default(); items];
    for (item, amounts) in table.iter_mut().enumerate() {
        for row in 0..objectives {
            amounts.profits[row] = profits[row * items + item];
        }
        for row in 0..rules {
            amounts.weights[row] = weights[row * items + item];
        }
    }
    Knapsack { objectives, capacities, table }
}

fn filled(k: &Knapsack) -> Sol {
    let mut sol = Sol { len: k.table.len(), words: [0; 32] };
    let mut rooms = k.capacities;
    for (item, amounts) in k.table.iter().enumerate() {
        if fit(&amounts.weights, &rooms) {
            subtract(&mut rooms, &amounts.weights);
            sol.set(item, true);
        }
    }
    sol
}

fn values(k: &Knapsack, start: &Sol, other: &Vector) -> (u64, i64) {
    let (mut covered, mut sum) = (0u64, 0i64);
    let mut walk = k.walk(start);
    for _ in 0..NEIGHBOURS {
        match k.next_value(&mut walk) {
            Some(value) => {
                covered = covered.wrapping_add(u64::from(other.covers(&value)));
                sum = sum.wrapping_add(value.parts[0]);
            }
            None => walk = k.walk(start),
        }
    }
    (covered, sum)
}

fn solutions(k: &Knapsack, start: &Sol, other: &Vector) -> (u64, u64) {
    let (mut covered, mut words) = (0u64, 0u64);
    let mut sol = *start;
    let mut walk = k.walk(start);
    for n in 0..NEIGHBOURS {
        match k.next_value(&mut walk) {
            Some(value) => {
                k.solution(&walk, &mut sol);
                covered = covered.wrapping_add(u64::from(other.covers(&value)));
                words = words.wrapping_add(sol.words[n as usize % 4]);
            }
            None => walk = k.walk(start),
        }
    }
    (covered, words)
}

fn main() {
    for items in [20, 60, 100, 256] {
        for objectives in 2..5 {
            for rules in [1, 8] {
                let k = instance(items, objectives, rules);
                let start = filled(&k);
                let other = k.vector(&k.tally(&start).values);
                let clock = Instant::now();
                let (covered, sum) = values(&k, &start, &other);
                let first = clock.elapsed().as_micros();
                let clock = Instant::now();
                let (_, words) = solutions(&k, &start, &other);
                let second = clock.elapsed().as_micros();
                assert!(start.len == items);
                println!("{items} {objectives} {rules}: {first} {second} : {covered} {sum} {words}");
            }
        }
    }
}
