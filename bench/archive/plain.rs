//! A search over tours in plain Rust, by an ND-tree and by a list, as a yardstick. The walk is that of `perms`.
#[allow(dead_code)]
#[path = "../perms/plain.rs"]
pub mod perms;

use perms::{Kind, Sol, Tour, Vector};
use std::sync::atomic::{AtomicUsize, Ordering::Relaxed};
use std::time::Instant;

const MOVES: u32 = 1_000_000;
const MOST_IN_LEAF: usize = 20;
const REMEMBERED: usize = 8;

#[derive(Clone, Copy)]
pub struct Point {
    pub value: Vector,
    pub sol: Sol,
}

impl Vector {
    fn dominates(&self, other: &Vector) -> bool {
        self.covers(other) && self.parts != other.parts
    }
}

#[derive(Clone, Copy)]
struct Range {
    ideal: Vector,
    nadir: Vector,
}

enum Decision {
    AllCover,
    CoversAll,
    Apart,
    Mixed,
}

impl Range {
    fn of(v: &Vector) -> Range {
        Range { ideal: *v, nadir: *v }
    }

    fn grow(&mut self, v: &Vector) {
        for k in 0..4 {
            self.ideal.parts[k] = self.ideal.parts[k].max(v.parts[k]);
            self.nadir.parts[k] = self.nadir.parts[k].min(v.parts[k]);
        }
    }

    fn decide(&self, v: &Vector) -> Decision {
        if self.nadir.covers(v) {
            Decision::AllCover
        } else if v.covers(&self.ideal) {
            Decision::CoversAll
        } else if !self.ideal.covers(v) && !v.covers(&self.nadir) {
            Decision::Apart
        } else {
            Decision::Mixed
        }
    }

    fn encloses(&self, v: &Vector) -> bool {
        self.ideal.covers(v) && v.covers(&self.nadir)
    }

    fn gap(&self, v: &Vector) -> u128 {
        (0..4)
            .map(|k| {
                let off = (2 * v.parts[k] - self.ideal.parts[k] - self.nadir.parts[k]).unsigned_abs() as u128;
                off * off
            })
            .sum()
    }
}

fn closest(boxes: &[Range], v: &Vector) -> usize {
    let mut best = 0;
    let mut least = boxes[0].gap(v);
    for k in 1..boxes.len() {
        let gap = boxes[k].gap(v);
        if gap < least {
            best = k;
            least = gap;
        }
    }
    best
}

#[derive(Default)]
struct Leaf {
    values: Vec<Vector>,
    sols: Vec<Sol>,
}

impl Leaf {
    fn push(&mut self, p: &Point) {
        self.values.push(p.value);
        self.sols.push(p.sol);
    }
}

enum Body {
    Leaf(Leaf),
    Inner(Vec<Range>, Vec<Node>),
}

struct Node {
    /// The child that covered lately is asked first.
    first: AtomicUsize,
    body: Body,
}

impl Node {
    fn new(body: Body) -> Node {
        Node { first: AtomicUsize::new(0), body }
    }

    fn covering(&self, v: &Vector) -> Option<Vector> {
        match &self.body {
            Body::Leaf(leaf) => leaf.values.iter().find(|w| w.covers(v)).copied(),
            Body::Inner(boxes, children) => {
                let first = self.first.load(Relaxed).min(children.len() - 1);
                for i in 0..children.len() {
                    let k = if i == 0 {
                        first
                    } else if i <= first {
                        i - 1
                    } else {
                        i
                    };
                    let found = if boxes[k].nadir.covers(v) {
                        Some(boxes[k].nadir)
                    } else if boxes[k].ideal.covers(v) {
                        children[k].covering(v)
                    } else {
                        None
                    };
                    if found.is_some() {
                        if k != first {
                            self.first.store(k, Relaxed);
                        }
                        return found;
                    }
                }
                None
            }
        }
    }

    fn has(&self, v: &Vector) -> bool {
        match &self.body {
            Body::Leaf(leaf) => leaf.values.iter().any(|w| w.parts == v.parts),
            Body::Inner(boxes, children) => (0..children.len()).any(|k| boxes[k].encloses(v) && children[k].has(v)),
        }
    }

    fn gather(&self, into: &mut Vec<Point>) {
        match &self.body {
            Body::Leaf(leaf) => into.extend(leaf.values.iter().zip(&leaf.sols).map(|(&value, &sol)| Point { value, sol })),
            Body::Inner(_, children) => children.iter().for_each(|child| child.gather(into)),
        }
    }

    /// Removes the points that the value dominates; true where none is left.
    fn remove(&mut self, v: &Vector) -> bool {
        match &mut self.body {
            Body::Leaf(leaf) => {
                let mut k = 0;
                while k < leaf.values.len() {
                    if v.dominates(&leaf.values[k]) {
                        leaf.values.remove(k);
                        leaf.sols.remove(k);
                    } else {
                        k += 1;
                    }
                }
                leaf.values.is_empty()
            }
            Body::Inner(boxes, children) => {
                let mut k = 0;
                while k < children.len() {
                    let gone = match boxes[k].decide(v) {
                        Decision::CoversAll => true,
                        Decision::Mixed => children[k].remove(v),
                        _ => false,
                    };
                    if gone {
                        boxes.remove(k);
                        children.remove(k);
                    } else {
                        k += 1;
                    }
                }
                if children.len() == 1 {
                    *self = children.pop().unwrap();
                    return false;
                }
                children.is_empty()
            }
        }
    }

    fn insert(&mut self, p: &Point, objectives: usize, depth: usize) {
        match &mut self.body {
            Body::Leaf(leaf) => {
                leaf.push(p);
                if leaf.values.len() > MOST_IN_LEAF && depth < 256 {
                    self.body = split(leaf, objectives);
                }
            }
            Body::Inner(boxes, children) => {
                let k = closest(boxes, &p.value);
                boxes[k].grow(&p.value);
                children[k].insert(p, objectives, depth + 1);
            }
        }
    }
}

fn distance(a: &Vector, b: &Vector) -> u128 {
    Range::of(a).gap(b)
}

fn split(leaf: &mut Leaf, objectives: usize) -> Body {
    let values = &leaf.values;
    let mut left: Vec<usize> = (0..values.len()).collect();
    let mut sums: Vec<u128> = left.iter().map(|&k| left.iter().map(|&j| distance(&values[k], &values[j])).sum()).collect();
    let mut groups: Vec<Vec<usize>> = Vec::new();
    for n in 0..=objectives {
        let mut at = 0;
        for k in 1..left.len() {
            if sums[left[k]] > sums[left[at]] {
                at = k;
            }
        }
        let place = left.remove(at);
        for &k in &left {
            sums[k] = if n == 0 { 0 } else { sums[k] } + distance(&values[k], &values[place]);
        }
        groups.push(vec![place]);
    }
    let mut boxes: Vec<Range> = groups.iter().map(|group| Range::of(&values[group[0]])).collect();
    for place in left {
        let k = closest(&boxes, &values[place]);
        groups[k].push(place);
        boxes[k].grow(&values[place]);
    }
    let leaf_of = |group: &Vec<usize>| {
        let mut new = Leaf { values: Vec::with_capacity(MOST_IN_LEAF + 1), sols: Vec::with_capacity(MOST_IN_LEAF + 1) };
        for &k in group {
            new.push(&Point { value: leaf.values[k], sol: leaf.sols[k] });
        }
        Node::new(Body::Leaf(new))
    };
    let children = groups.iter().map(leaf_of).collect();
    Body::Inner(boxes, children)
}

pub trait Archive {
    fn covered(&mut self, v: &Vector) -> bool;
    fn member(&self, v: &Vector) -> bool;
    /// Brings in a point that is not covered.
    fn admit(&mut self, p: &Point);
    fn points(&self) -> Vec<Point>;

    /// Submits a point: whether it was brought in.
    fn update(&mut self, p: &Point) -> bool {
        if self.covered(&p.value) {
            return false;
        }
        self.admit(p);
        true
    }
}

pub struct Tree {
    objectives: usize,
    root: Node,
}

impl Tree {
    pub fn new(objectives: usize) -> Tree {
        Tree { objectives, root: Node::new(Body::Leaf(Leaf::default())) }
    }

    /// A value that covers this one, if a member does.
    pub fn covering(&self, v: &Vector) -> Option<Vector> {
        self.root.covering(v)
    }

    pub fn member(&self, v: &Vector) -> bool {
        self.root.has(v)
    }

    /// Brings in a point that is not covered.
    pub fn admit(&mut self, p: &Point) {
        if self.root.remove(&p.value) {
            self.root = Node::new(Body::Leaf(Leaf::default()));
        }
        self.root.insert(p, self.objectives, 0);
    }

    pub fn points(&self) -> Vec<Point> {
        let mut points = Vec::new();
        self.root.gather(&mut points);
        points
    }
}

/// Values that covered lately: each is covered by a member.
#[derive(Default)]
pub struct Recent {
    values: Vec<Vector>,
    next: usize,
}

impl Recent {
    /// Whether a member covers the value: the tree is asked where none of these does.
    pub fn covered(&mut self, v: &Vector, ask: impl FnOnce() -> Option<Vector>) -> bool {
        if self.values.iter().any(|w| w.covers(v)) {
            return true;
        }
        let Some(w) = ask() else {
            return false;
        };
        if self.values.len() < REMEMBERED {
            self.values.push(w);
        } else {
            self.values[self.next] = w;
            self.next = (self.next + 1) % REMEMBERED;
        }
        true
    }
}

pub struct NdTree {
    tree: Tree,
    recent: Recent,
}

impl NdTree {
    pub fn new(objectives: usize) -> NdTree {
        NdTree { tree: Tree::new(objectives), recent: Recent::default() }
    }
}

impl Archive for NdTree {
    fn covered(&mut self, v: &Vector) -> bool {
        self.recent.covered(v, || self.tree.covering(v))
    }

    fn member(&self, v: &Vector) -> bool {
        self.tree.member(v)
    }

    fn admit(&mut self, p: &Point) {
        self.tree.admit(p);
    }

    fn points(&self) -> Vec<Point> {
        self.tree.points()
    }
}

#[derive(Default)]
struct List {
    points: Vec<Point>,
}

impl Archive for List {
    fn covered(&mut self, v: &Vector) -> bool {
        self.points.iter().any(|p| p.value.covers(v))
    }

    fn member(&self, v: &Vector) -> bool {
        self.points.iter().any(|p| p.value.parts == v.parts)
    }

    fn admit(&mut self, p: &Point) {
        self.points.retain(|q| !p.value.dominates(&q.value));
        self.points.push(*p);
    }

    fn points(&self) -> Vec<Point> {
        self.points.clone()
    }
}

/// The words of Xoshiro256++, seeded by SplitMix64.
struct Words {
    state: [u64; 4],
}

impl Words {
    fn seeded(seed: u64) -> Words {
        let mut s = seed;
        Words {
            state: std::array::from_fn(|_| {
                s = s.wrapping_add(0x9e3779b97f4a7c15);
                let z = (s ^ (s >> 30)).wrapping_mul(0xbf58476d1ce4e5b9);
                let z = (z ^ (z >> 27)).wrapping_mul(0x94d049bb133111eb);
                z ^ (z >> 31)
            }),
        }
    }

    fn next(&mut self) -> u64 {
        let s = &mut self.state;
        let word = s[0].wrapping_add(s[3]).rotate_left(23).wrapping_add(s[0]);
        let t = s[1] << 17;
        s[2] ^= s[0];
        s[3] ^= s[1];
        s[1] ^= s[2];
        s[0] ^= s[3];
        s[2] ^= t;
        s[3] = s[3].rotate_left(45);
        word
    }
}

/// The tour that `plsnd make --kind tour --seed 1` makes.
fn made(cities: usize, objectives: usize) -> Tour {
    let mut words = Words::seeded(1);
    let edges: Vec<u32> = (0..objectives * cities * (cities - 1) / 2).map(|_| 1 + (words.next() % 100) as u32).collect();
    Tour::new(cities, objectives, &edges)
}

fn submit<A: Archive>(archive: &mut A, tasks: &mut Vec<Point>, point: &Point) {
    if archive.update(point) {
        tasks.push(*point);
    }
}

/// Explores the accepted points in order, a move for each neighbour: how many points were accepted.
fn search<A: Archive>(tour: &Tour, archive: &mut A, start: &Sol) -> usize {
    let mut tasks = Vec::new();
    let mut point = Point { value: tour.value(start), sol: *start };
    submit(archive, &mut tasks, &point);
    let mut next = 0;
    let mut moves = MOVES;
    while next < tasks.len() {
        let task: Point = tasks[next];
        next += 1;
        if !archive.member(&task.value) {
            continue;
        }
        let mut walk = tour.walk(&task.sol);
        while let Some(value) = tour.next_value(&mut walk) {
            if moves == 0 {
                return tasks.len();
            }
            moves -= 1;
            point.value = value;
            tour.solution(&walk, &mut point.sol);
            submit(archive, &mut tasks, &point);
        }
    }
    tasks.len()
}

fn time<A: Archive>(name: &str, cities: usize, objectives: usize, mut archive: A) {
    let tour = made(cities, objectives);
    let clock = Instant::now();
    let accepted = search(&tour, &mut archive, &Sol::order(cities));
    let time = clock.elapsed().as_micros();
    println!("{name}, {cities} cities, {objectives} objectives: {time} : {accepted} {}", archive.points().len());
}

fn main() {
    for (cities, objectives) in [(60, 2), (60, 3), (60, 4), (100, 3)] {
        time("tree", cities, objectives, NdTree::new(objectives));
        time("list", cities, objectives, List::default());
        time("turns", cities, objectives, NdTree::new(objectives));
    }
}
