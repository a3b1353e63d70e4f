//! Puts tasks of 304 bytes into a channel, and into a VecDeque behind a lock, and takes them out, on one thread and on four.

use std::collections::VecDeque;
use std::sync::{Mutex, mpsc};
use std::thread;
use std::time::Instant;

const AT_ONCE: u64 = 50;
const ROUNDS: u32 = 20_000;

#[derive(Clone, Copy)]
struct Task {
    words: [u64; 38],
}

/// A pool that threads share.
trait Pool: Sync {
    type Seat: Send;
    fn put(&self, seat: &Self::Seat, task: Task);
    fn take(&self) -> Option<Task>;
}

struct Channel(Mutex<mpsc::Receiver<Task>>);

impl Pool for Channel {
    type Seat = mpsc::Sender<Task>;

    fn put(&self, seat: &mpsc::Sender<Task>, task: Task) {
        seat.send(task).unwrap();
    }

    fn take(&self) -> Option<Task> {
        self.0.lock().unwrap().try_recv().ok()
    }
}

struct Locked(Mutex<VecDeque<Task>>);

impl Pool for Locked {
    type Seat = ();

    fn put(&self, _seat: &(), task: Task) {
        self.0.lock().unwrap().push_back(task);
    }

    fn take(&self) -> Option<Task> {
        self.0.lock().unwrap().pop_front()
    }
}

fn take_some<P: Pool>(pool: &P) -> u64 {
    (0..AT_ONCE).filter_map(|_| pool.take()).map(|task| task.words[37]).sum()
}

fn put_and_take<P: Pool>(pool: &P, seat: &P::Seat, rounds: u32) -> u64 {
    let mut sum = 0;
    for _ in 0..rounds {
        for k in 0..AT_ONCE {
            pool.put(seat, Task { words: [k; 38] });
        }
        sum += take_some(pool);
    }
    sum
}

fn by_four<P: Pool>(pool: &P, seats: Vec<P::Seat>) -> u64 {
    thread::scope(|scope| {
        let threads: Vec<_> = seats
            .into_iter()
            .map(|seat| scope.spawn(move || put_and_take(pool, &seat, ROUNDS / 4)))
            .collect();
        threads.into_iter().map(|thread| thread.join().unwrap()).sum::<u64>()
    }) + take_some(pool)
}

fn tell(pool: &str, threads: u32, beside: &str, time: u128, sum: u64) {
    println!("{pool}, {threads} at once, beside {beside}: {time} : {sum}");
}

fn channel() -> (Channel, mpsc::Sender<Task>) {
    let (sender, receiver) = mpsc::channel();
    (Channel(Mutex::new(receiver)), sender)
}

fn main() {
    for pool in ["one queue", "deques"] {
        let (tasks, seat) = channel();
        let clock = Instant::now();
        let sum = put_and_take(&tasks, &seat, ROUNDS);
        tell(pool, 1, "mpsc", clock.elapsed().as_micros(), sum);
        let tasks = Locked(Mutex::new(VecDeque::new()));
        let clock = Instant::now();
        let sum = put_and_take(&tasks, &(), ROUNDS);
        tell(pool, 1, "a VecDeque", clock.elapsed().as_micros(), sum);
    }
    for pool in ["one queue", "deques"] {
        let (tasks, seat) = channel();
        let seats = vec![seat.clone(), seat.clone(), seat.clone(), seat];
        let clock = Instant::now();
        let sum = by_four(&tasks, seats);
        tell(pool, 4, "mpsc", clock.elapsed().as_micros(), sum);
        let tasks = Locked(Mutex::new(VecDeque::new()));
        let clock = Instant::now();
        let sum = by_four(&tasks, vec![(); 4]);
        tell(pool, 4, "a VecDeque", clock.elapsed().as_micros(), sum);
    }
}
