// The same steps on the same words in plain Rust, as a yardstick.
use std::collections::VecDeque;
use std::hint::black_box;
use std::sync::atomic::{AtomicU64, Ordering::SeqCst};
use std::thread;
use std::time::Instant;

const TIMES: u32 = 1_000_000;
const STARS: u32 = 100_000;
const ROOT: u64 = 1 << 24;
const WIDTH: usize = 40;

struct Rows {
    words: Vec<AtomicU64>,
    passes: usize,
    rows: usize,
}

struct Pass {
    number: usize,
    next: usize,
    pinned: (u64, usize),
    fresh: Vec<u32>,
    loose: Vec<bool>,
    reached: Vec<u32>,
    marked: Vec<u32>,
    retired: VecDeque<u64>,
}

impl Rows {
    fn start(rows: usize, passes: usize) -> (Rows, Vec<Pass>) {
        let words: Vec<AtomicU64> = (0..1 + passes + rows + WIDTH * rows).map(|_| AtomicU64::new(0)).collect();
        words[1 + passes].store(1, SeqCst);
        let all = (0..passes)
            .map(|number| Pass {
                number,
                next: number * rows / passes,
                pinned: (0, 0),
                fresh: Vec::with_capacity(rows),
                loose: vec![false; rows],
                reached: Vec::with_capacity(rows),
                marked: Vec::with_capacity(rows),
                retired: VecDeque::with_capacity(rows),
            })
            .collect();
        (Rows { words, passes, rows }, all)
    }

    fn owner(&self, row: usize) -> &AtomicU64 {
        &self.words[1 + self.passes + row]
    }

    fn cell(&self, row: usize, place: usize) -> &AtomicU64 {
        &self.words[1 + self.passes + self.rows + WIDTH * row + place]
    }

    fn pin(&self, pass: &mut Pass) {
        let noted = self.words[0].load(SeqCst) / ROOT;
        self.words[1 + pass.number].store(noted + 1, SeqCst);
        let root = self.words[0].load(SeqCst);
        pass.pinned = (root / ROOT, (root % ROOT) as usize);
    }

    fn unpin(&self, pass: &mut Pass) {
        self.words[1 + pass.number].store(0, SeqCst);
        pass.marked.clear();
    }

    fn take(&self, pass: &mut Pass) -> Option<usize> {
        for row in (pass.next..self.rows).chain(0..pass.next) {
            if self.owner(row).compare_exchange(0, pass.number as u64 + 1, SeqCst, SeqCst).is_ok() {
                pass.fresh.push(row as u32);
                pass.loose[row] = true;
                pass.next = row + 1;
                return Some(row);
            }
        }
        None
    }

    fn give_back(&self, pass: &mut Pass, row: usize) {
        self.owner(row).store(0, SeqCst);
        if pass.fresh.last() == Some(&(row as u32)) {
            pass.fresh.pop();
        } else {
            pass.fresh.retain(|x| *x as usize != row);
        }
        pass.loose[row] = false;
        pass.next = row;
    }

    fn reach(&self, pass: &mut Pass, root: usize) {
        pass.reached.clear();
        pass.loose[root] = false;
        pass.reached.push(root as u32);
        let mut next = 0;
        while next < pass.reached.len() {
            let row = pass.reached[next] as usize;
            let links = (self.cell(row, 0).load(SeqCst) / 4).min(39) as usize;
            for place in 1..links + 1 {
                let link = self.cell(row, place).load(SeqCst) as usize;
                if pass.loose[link] {
                    pass.loose[link] = false;
                    pass.reached.push(link as u32);
                }
            }
            next += 1;
        }
    }

    fn publish(&self, pass: &mut Pass, row: usize) -> bool {
        let (version, root) = pass.pinned;
        self.reach(pass, row);
        let old = version * ROOT + root as u64;
        let new = (version + 1) * ROOT + row as u64;
        if self.words[0].compare_exchange(old, new, SeqCst, SeqCst).is_err() {
            for row in &pass.reached {
                pass.loose[*row as usize] = true;
            }
            return false;
        }
        let loose = &pass.loose;
        pass.fresh.retain(|x| loose[*x as usize]);
        for gone in pass.marked.drain(..) {
            pass.retired.push_back(version * ROOT + u64::from(gone));
        }
        true
    }

    fn tidy(&self, pass: &mut Pass) -> u32 {
        let mut least = u64::MAX;
        for word in &self.words[1..1 + self.passes] {
            let reserved = word.load(SeqCst);
            if reserved != 0 {
                least = least.min(reserved - 1);
            }
        }
        let mut freed = 0;
        while let Some(word) = pass.retired.front().copied() {
            if word / ROOT >= least {
                break;
            }
            pass.retired.pop_front();
            let row = (word % ROOT) as usize;
            self.owner(row).store(0, SeqCst);
            pass.next = row;
            freed += 1;
        }
        freed
    }

    fn put(&self, pass: &mut Pass) -> bool {
        self.pin(pass);
        let Some(row) = self.take(pass) else {
            self.unpin(pass);
            return false;
        };
        self.cell(row, 0).store(0, SeqCst);
        self.cell(row, 1).store(pass.pinned.0 + 1, SeqCst);
        pass.marked.push(pass.pinned.1 as u32);
        let won = self.publish(pass, row);
        if !won {
            self.give_back(pass, row);
        }
        self.unpin(pass);
        won
    }

    fn replaced(&self, pass: &mut Pass) {
        for _ in 0..TIMES {
            black_box(self.put(pass));
            self.tidy(pass);
        }
    }

    fn read_current(&self, pass: &mut Pass, place: usize) -> u64 {
        self.pin(pass);
        let word = self.cell(pass.pinned.1, place).load(SeqCst);
        self.unpin(pass);
        word
    }

    fn take_rows(&self, pass: &mut Pass, count: u32) {
        for _ in 0..count {
            if self.take(pass).is_none() {
                return;
            }
        }
    }

    fn mark_star(&self, pass: &mut Pass) {
        let root = pass.pinned.1;
        pass.marked.push(root as u32);
        let links = (self.cell(root, 0).load(SeqCst) / 4) as usize;
        for place in 1..links + 1 {
            let leaf = self.cell(root, place).load(SeqCst);
            pass.marked.push(leaf as u32);
        }
    }

    fn write_star(&self, pass: &mut Pass, leaves: usize) -> usize {
        let root = pass.fresh[0] as usize;
        for k in 0..leaves {
            let leaf = pass.fresh[k + 1] as usize;
            self.cell(leaf, 0).store(0, SeqCst);
            self.cell(root, k + 1).store(leaf as u64, SeqCst);
        }
        self.cell(root, 0).store(4 * leaves as u64, SeqCst);
        root
    }

    fn publish_star(&self, pass: &mut Pass, count: usize) -> bool {
        self.pin(pass);
        self.mark_star(pass);
        let root = self.write_star(pass, count - 1);
        let won = self.publish(pass, root);
        self.unpin(pass);
        won
    }

    fn put_stars(&self, pass: &mut Pass, count: usize) {
        for _ in 0..STARS {
            self.take_rows(pass, count.saturating_sub(pass.fresh.len()) as u32);
            if pass.fresh.len() < count {
                continue;
            }
            black_box(self.publish_star(pass, count));
            self.tidy(pass);
        }
    }

    fn give_one(&self, pass: &mut Pass, k: usize) {
        if k < pass.fresh.len() {
            let row = pass.fresh[k] as usize;
            self.give_back(pass, row);
        }
    }

    fn take_and_give(&self, pass: &mut Pass, rounds: u32) {
        for _ in 0..rounds {
            self.take_rows(pass, 200);
            for _ in 0..200 {
                self.give_one(pass, pass.fresh.len().saturating_sub(1));
            }
        }
    }
}

fn one_row() {
    let (rows, mut passes) = Rows::start(black_box(64), black_box(1));
    let pass = &mut passes[0];
    let clock = Instant::now();
    rows.replaced(pass);
    println!("{TIMES} replacements: {} : ", clock.elapsed().as_micros());
    let clock = Instant::now();
    let mut total: u64 = 0;
    for _ in 0..TIMES {
        total = total.wrapping_add(rows.read_current(pass, 1));
    }
    println!("{TIMES} readings: {} : {total}", clock.elapsed().as_micros());
}

fn takes() {
    let (rows, mut passes) = Rows::start(black_box(10_000), black_box(4));
    rows.take_rows(&mut passes[0], 10_000);
    let mut k = passes[0].fresh.len();
    while k >= 10 {
        k -= 10;
        rows.give_one(&mut passes[0], k);
    }
    let clock = Instant::now();
    rows.take_and_give(&mut passes[0], 5_000);
    println!("1000000 takes by 1 thread: {} : ", clock.elapsed().as_micros());
    let clock = Instant::now();
    thread::scope(|scope| {
        for pass in &mut passes {
            scope.spawn(|| rows.take_and_give(pass, 1_250));
        }
    });
    println!("1000000 takes by 4 threads: {} : ", clock.elapsed().as_micros());
}

fn tidies(count: u32, rounds: u32) {
    let (rows, mut passes) = Rows::start(black_box(count as usize + 64), black_box(1));
    let pass = &mut passes[0];
    let mut total: u128 = 0;
    for _ in 0..rounds {
        for _ in 0..count {
            rows.put(pass);
        }
        let clock = Instant::now();
        rows.tidy(pass);
        total += clock.elapsed().as_nanos();
    }
    println!("{rounds} tidies of {count} free rows: {} : ", total / 1000);
}

fn blocked(count: u32) {
    let (rows, mut passes) = Rows::start(black_box(count as usize + 64), black_box(2));
    rows.pin(&mut passes[1]);
    let pass = &mut passes[0];
    for _ in 0..count {
        rows.put(pass);
    }
    let clock = Instant::now();
    for _ in 0..TIMES {
        black_box(rows.tidy(pass));
    }
    println!("{TIMES} tidies of {count} blocked rows: {} : ", clock.elapsed().as_micros());
}

fn publications(fresh: u32) {
    let (rows, mut passes) = Rows::start(black_box(128), black_box(1));
    let pass = &mut passes[0];
    rows.take_rows(pass, fresh - 1);
    let clock = Instant::now();
    rows.replaced(pass);
    println!("{TIMES} publications by a pass with {fresh} fresh rows: {} : ", clock.elapsed().as_micros());
}

fn star_publications(count: u32) {
    let (rows, mut passes) = Rows::start(black_box(128), black_box(1));
    let pass = &mut passes[0];
    let clock = Instant::now();
    rows.put_stars(pass, black_box(count as usize));
    let time = clock.elapsed().as_micros();
    let word = rows.read_current(pass, 0);
    println!("{STARS} publications of {count} fresh rows: {time} : {} {word}", pass.pinned.0);
}

fn main() {
    one_row();
    takes();
    tidies(10, 30_000);
    tidies(1_000, 300);
    tidies(30_000, 10);
    blocked(10);
    blocked(1_000);
    blocked(30_000);
    publications(1);
    publications(10);
    publications(40);
    star_publications(1);
    star_publications(10);
    star_publications(40);
}
