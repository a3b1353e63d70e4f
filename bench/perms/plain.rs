// The same walks in plain Rust, as a yardstick: the value of a neighbour first, its solution on demand, and a
// table of what each place has in each list.
use std::time::Instant;

const NEIGHBOURS: u32 = 1_000_000;

#[derive(Clone, Copy)]
pub struct Sol {
    pub len: usize,
    pub words: [u64; 32],
}

impl Sol {
    pub fn order(n: usize) -> Sol {
        let mut sol = Sol { len: n, words: [0; 32] };
        for i in 0..n {
            sol.set(i, i as u8);
        }
        sol
    }

    pub fn entry(&self, i: usize) -> u8 {
        (self.words[i / 8] >> (8 * (i % 8))) as u8
    }

    pub fn set(&mut self, i: usize, x: u8) {
        let shift = 8 * (i % 8);
        self.words[i / 8] = self.words[i / 8] & !(0xff << shift) | (x as u64) << shift;
    }

    fn swap(&mut self, i: usize, j: usize) {
        let entry = self.entry(i);
        self.set(i, self.entry(j));
        self.set(j, entry);
    }

    fn reverse(&mut self, mut i: usize, mut j: usize) {
        while i < j {
            self.swap(i, j);
            i += 1;
            j -= 1;
        }
    }
}

#[derive(Clone, Copy)]
pub struct Vector {
    pub len: usize,
    pub parts: [i64; 4],
}

impl Vector {
    pub fn covers(&self, other: &Vector) -> bool {
        let (a, b) = (&self.parts, &other.parts);
        self.len == other.len && ((a[0] - b[0]) | (a[1] - b[1]) | (a[2] - b[2]) | (a[3] - b[3])) >= 0
    }
}

type Sums = [u32; 4];

#[derive(Clone, Copy)]
pub struct Walk {
    start: Sol,
    sums: Sums,
    first: usize,
    second: usize,
    /// The entries of a tour, and its first one again.
    cities: [u8; 257],
}

impl Walk {
    fn step(&mut self, n: usize) -> bool {
        if self.second + 1 < n {
            self.second += 1;
            return true;
        }
        if self.first + 2 < n {
            self.first += 1;
            self.second = self.first + 1;
            return true;
        }
        false
    }
}

fn changed(sums: &Sums, added: [&Sums; 2], removed: [&Sums; 2]) -> Sums {
    std::array::from_fn(|k| sums[k] + added[0][k] + added[1][k] - removed[0][k] - removed[1][k])
}

fn vector(sums: &Sums, objectives: usize) -> Vector {
    Vector { len: objectives, parts: sums.map(|sum| -i64::from(sum)) }
}

fn table(long: usize, numbers: &[u32]) -> Vec<Sums> {
    (0..long).map(|place| std::array::from_fn(|k| numbers.get(k * long + place).copied().unwrap_or(0))).collect()
}

pub trait Kind {
    type Walk;
    fn walk(&self, sol: &Sol) -> Self::Walk;
    fn next_value(&self, walk: &mut Self::Walk) -> Option<Vector>;
    fn solution(&self, walk: &Self::Walk, into: &mut Sol);
}

struct Assignment {
    agents: usize,
    objectives: usize,
    table: Vec<Sums>,
}

impl Assignment {
    fn costs(&self, row: usize, column: u8) -> &Sums {
        &self.table[row * self.agents + column as usize]
    }
}

impl Kind for Assignment {
    type Walk = Walk;

    fn walk(&self, sol: &Sol) -> Walk {
        let mut sums = [0; 4];
        for i in 0..self.agents {
            for (sum, cost) in sums.iter_mut().zip(self.costs(i, sol.entry(i))) {
                *sum += cost;
            }
        }
        Walk { start: *sol, sums, first: 0, second: 0, cities: [0; 257] }
    }

    fn next_value(&self, walk: &mut Walk) -> Option<Vector> {
        if !walk.step(self.agents) {
            return None;
        }
        let (i, j) = (walk.first, walk.second);
        let (a, b) = (walk.start.entry(i), walk.start.entry(j));
        let sums = changed(&walk.sums, [self.costs(i, b), self.costs(j, a)], [self.costs(i, a), self.costs(j, b)]);
        Some(vector(&sums, self.objectives))
    }

    fn solution(&self, walk: &Walk, into: &mut Sol) {
        *into = walk.start;
        into.swap(walk.first, walk.second);
    }
}

pub struct Tour {
    pub cities: usize,
    pub objectives: usize,
    table: Vec<Sums>,
}

impl Tour {
    pub fn new(cities: usize, objectives: usize, edges: &[u32]) -> Tour {
        Tour { cities, objectives, table: table(cities * (cities - 1) / 2, edges) }
    }

    pub fn value(&self, sol: &Sol) -> Vector {
        vector(&self.walk(sol).sums, self.objectives)
    }

    fn between(&self, a: u8, b: u8) -> &Sums {
        let (a, b) = (a.min(b) as usize, a.max(b) as usize);
        &self.table[a * (2 * self.cities - a - 1) / 2 + (b - a - 1)]
    }
}

impl Kind for Tour {
    type Walk = Walk;

    fn walk(&self, sol: &Sol) -> Walk {
        let mut cities = [0; 257];
        for i in 0..self.cities {
            cities[i] = sol.entry(i);
        }
        let mut sums = [0; 4];
        for i in 0..self.cities {
            for (sum, edge) in sums.iter_mut().zip(self.between(cities[i], cities[i + 1])) {
                *sum += edge;
            }
        }
        Walk { start: *sol, sums, first: 1, second: 1, cities }
    }

    fn next_value(&self, walk: &mut Walk) -> Option<Vector> {
        if !walk.step(self.cities) {
            return None;
        }
        let (i, j) = (walk.first, walk.second);
        let (before, begin) = (walk.cities[i - 1], walk.cities[i]);
        let (end, after) = (walk.cities[j], walk.cities[j + 1]);
        let added = [self.between(before, end), self.between(begin, after)];
        let removed = [self.between(before, begin), self.between(end, after)];
        Some(vector(&changed(&walk.sums, added, removed), self.objectives))
    }

    fn solution(&self, walk: &Walk, into: &mut Sol) {
        *into = walk.start;
        into.reverse(walk.first, walk.second);
    }
}

fn numbers(count: usize, seed: u64) -> Vec<u32> {
    let mut state = seed;
    (0..count)
        .map(|_| {
            state = state.wrapping_mul(6364136223846793005).wrapping_add(1442695040888963407);
            (state >> 33) as u32 % 1000 + 1
        })
        .collect()
}

fn values<K: Kind>(k: &K, start: &Sol, other: &Vector) -> (u64, i64) {
    let (mut covered, mut sum) = (0u64, 0i64);
    let mut walk = k.walk(start);
    for _ in 0..NEIGHBOURS {
        match k.next_value(&mut walk) {
            Some(value) => {
                covered = covered.wrapping_add(u64::from(other.covers(&value)));
                sum = sum.wrapping_add(value.parts[0]);
            }
            None => walk = k.walk(start),
        }
    }
    (covered, sum)
}

fn solutions<K: Kind>(k: &K, start: &Sol, other: &Vector) -> (u64, u64) {
    let (mut covered, mut words) = (0u64, 0u64);
    let mut sol = *start;
    let mut walk = k.walk(start);
    for n in 0..NEIGHBOURS {
        match k.next_value(&mut walk) {
            Some(value) => {
                k.solution(&walk, &mut sol);
                covered = covered.wrapping_add(u64::from(other.covers(&value)));
                words = words.wrapping_add(sol.words[n as usize % 32]);
            }
            None => walk = k.walk(start),
        }
    }
    (covered, words)
}

fn scattered(n: usize) -> Sol {
    let mut sol = Sol::order(n);
    for i in 1..n {
        sol.swap(i, 1 + i * 37 % (n - 1));
    }
    sol
}

fn time<K: Kind<Walk = Walk>>(name: &str, k: &K, n: usize, objectives: usize) {
    let start = scattered(n);
    let other = vector(&k.walk(&start).sums, objectives);
    let clock = Instant::now();
    let (covered, sum) = values(k, &start, &other);
    let first = clock.elapsed().as_micros();
    let clock = Instant::now();
    let (_, words) = solutions(k, &start, &other);
    let second = clock.elapsed().as_micros();
    assert!(start.len == n);
    println!("{name} {n} {objectives}: {first} {second} : {covered} {sum} {words}");
}

fn main() {
    for n in [30, 100, 256] {
        for objectives in 2..5 {
            let costs = numbers(objectives * n * n, 1);
            let k = Assignment { agents: n, objectives, table: table(n * n, &costs) };
            time("assignment", &k, n, objectives);
            let edges = numbers(objectives * n * (n - 1) / 2, 2);
            time("tour", &Tour::new(n, objectives, &edges), n, objectives);
        }
    }
}
