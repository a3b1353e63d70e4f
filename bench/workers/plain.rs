//! The same search in plain Rust over an ND-tree, as a yardstick: by one worker alone, and by several who share the tree behind
//! a lock. `plain search --moves M --workers K` reads an instance and prints what `plsnd` does.
#[allow(dead_code)]
#[path = "../archive/plain.rs"]
mod archive;
#[allow(dead_code)]
#[path = "../search/plain.rs"]
mod search;

use archive::perms::{Kind, Sol, Tour, Vector};
use archive::{Archive, NdTree, Point, Recent, Tree};
use search::{Counts, Knapsack, Words, shuffled};
use std::collections::VecDeque;
use std::io::Read;
use std::sync::atomic::{AtomicU64, Ordering::Relaxed};
use std::sync::{Condvar, Mutex, RwLock};

trait Problem: Kind + Sync {
    const NAME: &str;
    fn objectives(&self) -> usize;
    fn start(&self, words: &mut Words) -> Point;
    /// The numbers that a solution shows.
    fn shown(&self, sol: &Sol) -> Vec<usize>;
}

fn choice(sol: &Sol) -> search::Sol {
    search::Sol { words: sol.words }
}

impl Kind for Knapsack {
    type Walk = search::Walk;

    fn walk(&self, sol: &Sol) -> search::Walk {
        Knapsack::walk(self, &choice(sol))
    }

    fn next_value(&self, walk: &mut search::Walk) -> Option<Vector> {
        Knapsack::next_value(self, walk).map(|parts| Vector { len: self.objectives, parts })
    }

    fn solution(&self, walk: &search::Walk, into: &mut Sol) {
        into.words = Knapsack::solution(self, walk).words;
    }
}

impl Problem for Knapsack {
    const NAME: &str = "knapsack";

    fn objectives(&self) -> usize {
        self.objectives
    }

    fn start(&self, words: &mut Words) -> Point {
        let sol = self.greedy(&shuffled(words, self.table.len(), 0));
        let parts = self.tally(&sol).values.map(i64::from);
        Point { value: Vector { len: self.objectives, parts }, sol: Sol { len: self.table.len(), words: sol.words } }
    }

    fn shown(&self, sol: &Sol) -> Vec<usize> {
        self.chosen(&choice(sol))
    }
}

impl Problem for Tour {
    const NAME: &str = "tour";

    fn objectives(&self) -> usize {
        self.objectives
    }

    fn start(&self, words: &mut Words) -> Point {
        let mut sol = Sol::order(self.cities);
        for (place, city) in shuffled(words, self.cities, 1).into_iter().enumerate() {
            sol.set(place, city as u8);
        }
        Point { value: self.value(&sol), sol }
    }

    fn shown(&self, sol: &Sol) -> Vec<usize> {
        (0..self.cities).map(|place| sol.entry(place) as usize).collect()
    }
}

struct Found {
    points: Vec<Point>,
    whole: bool,
    counts: Counts,
}

fn alone<P: Problem>(problem: &P, first: Point, moves: u64) -> Found {
    let mut archive = NdTree::new(problem.objectives());
    archive.admit(&first);
    let mut tasks = VecDeque::from([first]);
    let mut counts = Counts { accepted: 1, ..Counts::default() };
    let mut whole = true;
    'tasks: while let Some(task) = tasks.pop_front() {
        if !archive.member(&task.value) {
            continue;
        }
        let mut walk = problem.walk(&task.sol);
        let mut point = task;
        while let Some(value) = problem.next_value(&mut walk) {
            if counts.evaluated == moves {
                whole = false;
                break 'tasks;
            }
            counts.evaluated += 1;
            if !archive.covered(&value) {
                point.value = value;
                problem.solution(&walk, &mut point.sol);
                archive.admit(&point);
                tasks.push_back(point);
                counts.accepted += 1;
            }
        }
        counts.explored += 1;
    }
    Found { points: archive.points(), whole, counts }
}

struct Tasks {
    waiting: VecDeque<Point>,
    /// How many wait or are in work.
    open: usize,
    is_stopped: bool,
    explored: u64,
    accepted: u64,
}

struct Team<'a, P> {
    problem: &'a P,
    tree: RwLock<Tree>,
    tasks: Mutex<Tasks>,
    changed: Condvar,
    moves: u64,
    /// How many moves were wanted.
    drawn: AtomicU64,
}

impl<P: Problem> Team<'_, P> {
    fn put(&self, point: Point) {
        let mut tasks = self.tasks.lock().unwrap();
        tasks.waiting.push_back(point);
        tasks.open += 1;
        tasks.accepted += 1;
        self.changed.notify_one();
    }

    fn take(&self) -> Option<Point> {
        let tasks = self.tasks.lock().unwrap();
        let may_come = |tasks: &mut Tasks| tasks.waiting.is_empty() && tasks.open > 0 && !tasks.is_stopped;
        let mut tasks = self.changed.wait_while(tasks, may_come).unwrap();
        if tasks.is_stopped { None } else { tasks.waiting.pop_front() }
    }

    fn done(&self, explored: u64) {
        let mut tasks = self.tasks.lock().unwrap();
        tasks.explored += explored;
        tasks.open -= 1;
        if tasks.open == 0 {
            self.changed.notify_all();
        }
    }

    fn stop(&self) {
        self.tasks.lock().unwrap().is_stopped = true;
        self.changed.notify_all();
    }

    fn submit(&self, point: &Point) {
        let mut tree = self.tree.write().unwrap();
        if tree.covering(&point.value).is_none() {
            tree.admit(point);
            drop(tree);
            self.put(*point);
        }
    }

    /// False where a move is wanted and none is left.
    fn explore(&self, recent: &mut Recent, task: &Point) -> bool {
        let mut walk = self.problem.walk(&task.sol);
        let mut point = *task;
        while let Some(value) = self.problem.next_value(&mut walk) {
            if self.drawn.fetch_add(1, Relaxed) >= self.moves {
                return false;
            }
            if !recent.covered(&value, || self.tree.read().unwrap().covering(&value)) {
                point.value = value;
                self.problem.solution(&walk, &mut point.sol);
                self.submit(&point);
            }
        }
        true
    }

    fn work(&self) {
        let mut recent = Recent::default();
        while let Some(task) = self.take() {
            if !self.tree.read().unwrap().member(&task.value) {
                self.done(0);
            } else if self.explore(&mut recent, &task) {
                self.done(1);
            } else {
                self.stop();
            }
        }
    }
}

fn together<P: Problem>(problem: &P, first: Point, moves: u64, workers: u32) -> Found {
    let team = Team {
        problem,
        tree: RwLock::new(Tree::new(problem.objectives())),
        tasks: Mutex::new(Tasks { waiting: VecDeque::new(), open: 0, is_stopped: false, explored: 0, accepted: 0 }),
        changed: Condvar::new(),
        moves,
        drawn: AtomicU64::new(0),
    };
    team.submit(&first);
    std::thread::scope(|scope| {
        for _ in 0..workers {
            scope.spawn(|| team.work());
        }
    });
    let tasks = team.tasks.into_inner().unwrap();
    let evaluated = moves.min(team.drawn.into_inner());
    Found {
        points: team.tree.into_inner().unwrap().points(),
        whole: !tasks.is_stopped,
        counts: Counts { explored: tasks.explored, evaluated, accepted: tasks.accepted },
    }
}

fn searched<P: Problem>(problem: &P, moves: u64, workers: u32) -> String {
    let first = problem.start(&mut Words::seeded(1));
    let found = if workers == 1 { alone(problem, first, moves) } else { together(problem, first, moves, workers) };
    let front = found.points.iter().map(|point| (point.value.parts, problem.shown(&point.sol))).collect();
    search::text(P::NAME, problem.objectives(), front, found.whole, &found.counts)
}

fn tour(text: &str) -> Tour {
    let numbers: Vec<u32> = text.split_ascii_whitespace().skip(2).map(|word| word.parse().unwrap()).collect();
    Tour::new(numbers[1] as usize, numbers[0] as usize, &numbers[2..])
}

fn main() {
    let words: Vec<String> = std::env::args().collect();
    let [_, _, _, moves, _, workers, ..] = &words[..] else {
        panic!("search --moves M --workers K");
    };
    let (moves, workers) = (moves.parse().unwrap(), workers.parse().unwrap());
    let mut text = String::new();
    std::io::stdin().read_to_string(&mut text).unwrap();
    if text.starts_with("pls1 tour") {
        print!("{}", searched(&tour(&text), moves, workers));
    } else {
        print!("{}", searched(&Knapsack::read(&text), moves, workers));
    }
}
