//! Stacks and queues of numbers in plain Rust, which do the jobs of `ours.rattle`. `lock` is a vector under a lock, or
//! a `VecDeque`; `counted` is Treiber's stack, or the queue of Michael and Scott, with counted pointers: its nodes are
//! used again but never freed.
//!
//! usage: plain stack|queue lock|counted CALLERS DEPTH PAIRS
//! Each caller puts DEPTH numbers in first, and then PAIRS times a number, after which it takes one out.
use std::collections::VecDeque;
use std::hint::spin_loop;
use std::sync::atomic::{AtomicU64, Ordering};
use std::sync::Mutex;
use std::thread;

#[derive(Clone, Copy)]
enum Job {
    Put(u64),
    Take,
}

#[derive(Clone, Copy)]
enum Done {
    Put,
    Taken(u64),
    Empty,
}

/// What callers share. A caller keeps the nodes that it may use again.
trait Shared: Sync {
    fn put(&self, spare: &mut Vec<u64>, number: u64);
    fn take(&self, spare: &mut Vec<u64>) -> Option<u64>;
}

impl Shared for Mutex<Vec<u64>> {
    fn put(&self, _spare: &mut Vec<u64>, number: u64) {
        self.lock().unwrap().push(number);
    }

    fn take(&self, _spare: &mut Vec<u64>) -> Option<u64> {
        self.lock().unwrap().pop()
    }
}

impl Shared for Mutex<VecDeque<u64>> {
    fn put(&self, _spare: &mut Vec<u64>, number: u64) {
        self.lock().unwrap().push_back(number);
    }

    fn take(&self, _spare: &mut Vec<u64>) -> Option<u64> {
        self.lock().unwrap().pop_front()
    }
}

/// A counted pointer has the place of a node in its lower half, 0 for none, and in its upper half a count of the
/// exchanges so far. The count keeps an exchange from taking a node that was used again for the one that was loaded.
fn place_of(pointer: u64) -> u64 {
    pointer & 0xffff_ffff
}

/// Exchanges a counted pointer for one to this place. The pointer that is found, where it isn't the expected one.
fn exchange(at: &AtomicU64, expected: u64, place: u64) -> Result<u64, u64> {
    let counted = ((expected >> 32) + 1) << 32 | place;
    at.compare_exchange(expected, counted, Ordering::AcqRel, Ordering::Acquire)
}

struct Node {
    number: AtomicU64,
    link: AtomicU64,
}

/// Room for nodes, of which so many were used.
struct Nodes {
    room: Box<[Node]>,
    used: AtomicU64,
}

impl Nodes {
    fn new(room: u64) -> Self {
        let room = (0..=room).map(|_| Node { number: AtomicU64::new(0), link: AtomicU64::new(0) }).collect();
        Nodes { room, used: AtomicU64::new(0) }
    }

    fn at(&self, pointer: u64) -> &Node {
        &self.room[place_of(pointer) as usize]
    }

    /// The place of a node with this number.
    fn fill(&self, spare: &mut Vec<u64>, number: u64) -> u64 {
        let place = spare.pop().unwrap_or_else(|| self.used.fetch_add(1, Ordering::Relaxed) + 1);
        self.at(place).number.store(number, Ordering::Relaxed);
        place
    }
}

/// Treiber's stack.
struct CountedStack {
    nodes: Nodes,
    top: AtomicU64,
}

impl CountedStack {
    fn new(room: u64) -> Self {
        CountedStack { nodes: Nodes::new(room), top: AtomicU64::new(0) }
    }
}

impl Shared for CountedStack {
    fn put(&self, spare: &mut Vec<u64>, number: u64) {
        let place = self.nodes.fill(spare, number);
        let mut top = self.top.load(Ordering::Acquire);
        loop {
            self.nodes.at(place).link.store(place_of(top), Ordering::Relaxed);
            match exchange(&self.top, top, place) {
                Ok(_) => return,
                Err(found) => top = found,
            }
            spin_loop();
        }
    }

    fn take(&self, spare: &mut Vec<u64>) -> Option<u64> {
        let mut top = self.top.load(Ordering::Acquire);
        while place_of(top) != 0 {
            let node = self.nodes.at(top);
            match exchange(&self.top, top, node.link.load(Ordering::Relaxed)) {
                Ok(_) => {
                    spare.push(place_of(top));
                    return Some(node.number.load(Ordering::Relaxed));
                }
                Err(found) => top = found,
            }
            spin_loop();
        }
        None
    }
}

/// The queue of Michael and Scott. It looks at head, or tail, once more after it has loaded a link, since a node is
/// used again at once.
struct CountedQueue {
    nodes: Nodes,
    head: AtomicU64,
    tail: AtomicU64,
}

impl CountedQueue {
    fn new(room: u64) -> Self {
        let nodes = Nodes::new(room + 1);
        let dummy = nodes.fill(&mut Vec::new(), 0);
        CountedQueue { nodes, head: AtomicU64::new(dummy), tail: AtomicU64::new(dummy) }
    }
}

impl Shared for CountedQueue {
    fn put(&self, spare: &mut Vec<u64>, number: u64) {
        let place = self.nodes.fill(spare, number);
        let own = &self.nodes.at(place).link;
        // The count goes on.
        own.store(own.load(Ordering::Relaxed) >> 32 << 32, Ordering::Relaxed);
        loop {
            let tail = self.tail.load(Ordering::Acquire);
            let link = &self.nodes.at(tail).link;
            let next = link.load(Ordering::Acquire);
            if tail == self.tail.load(Ordering::Acquire) {
                if place_of(next) != 0 {
                    let _ = exchange(&self.tail, tail, place_of(next));
                } else if exchange(link, next, place).is_ok() {
                    let _ = exchange(&self.tail, tail, place);
                    return;
                }
            }
            spin_loop();
        }
    }

    fn take(&self, spare: &mut Vec<u64>) -> Option<u64> {
        loop {
            let head = self.head.load(Ordering::Acquire);
            let tail = self.tail.load(Ordering::Acquire);
            let next = self.nodes.at(head).link.load(Ordering::Acquire);
            if head == self.head.load(Ordering::Acquire) {
                if place_of(next) == 0 {
                    return None;
                }
                if place_of(head) == place_of(tail) {
                    let _ = exchange(&self.tail, tail, place_of(next));
                } else {
                    // Before the exchange: after it the node may be used again.
                    let number = self.nodes.at(next).number.load(Ordering::Relaxed);
                    if exchange(&self.head, head, place_of(next)).is_ok() {
                        spare.push(place_of(head));
                        return Some(number);
                    }
                }
            }
            spin_loop();
        }
    }
}

fn jobs_of(caller: u64, depth: u64, pairs: u64) -> Vec<Job> {
    let first = caller * (depth + pairs);
    let mut jobs: Vec<Job> = (first..first + depth).map(Job::Put).collect();
    for number in first + depth..first + depth + pairs {
        jobs.extend([Job::Put(number), Job::Take]);
    }
    jobs
}

fn do_jobs(shared: &impl Shared, jobs: &[Job]) -> Vec<Done> {
    let mut spare = Vec::new();
    let mut dones = Vec::new();
    for job in jobs {
        dones.push(match *job {
            Job::Put(number) => {
                shared.put(&mut spare, number);
                Done::Put
            }
            Job::Take => shared.take(&mut spare).map_or(Done::Empty, Done::Taken),
        });
    }
    dones
}

/// What was put in and isn't taken out, as a sum.
fn run(shared: &impl Shared, lists: &[Vec<Job>]) -> u64 {
    let done: Vec<Vec<Done>> = thread::scope(|scope| {
        let callers: Vec<_> = lists.iter().map(|jobs| scope.spawn(|| do_jobs(shared, jobs))).collect();
        callers.into_iter().map(|caller| caller.join().unwrap()).collect()
    });
    let mut sum = 0_u64;
    for (job, done) in lists.iter().flatten().zip(done.iter().flatten()) {
        match (*job, *done) {
            (Job::Put(number), Done::Put) => sum = sum.wrapping_add(number),
            (_, Done::Taken(number)) => sum = sum.wrapping_sub(number),
            _ => {}
        }
    }
    sum
}

fn main() {
    let words: Vec<String> = std::env::args().skip(1).collect();
    let [object, kind, numbers @ ..] = &words[..] else { panic!("five words") };
    let numbers: Vec<u64> = numbers.iter().map(|word| word.parse().unwrap()).collect();
    let [callers, depth, pairs] = numbers[..] else { panic!("three numbers") };
    let lists: Vec<Vec<Job>> = (0..callers).map(|caller| jobs_of(caller, depth, pairs)).collect();
    let room = callers * (depth + pairs);
    let sum = match (object.as_str(), kind.as_str()) {
        ("stack", "lock") => run(&Mutex::new(Vec::new()), &lists),
        ("stack", "counted") => run(&CountedStack::new(room), &lists),
        ("queue", "lock") => run(&Mutex::new(VecDeque::new()), &lists),
        ("queue", "counted") => run(&CountedQueue::new(room), &lists),
        _ => panic!("stack or queue, lock or counted"),
    };
    println!("{sum}");
}
