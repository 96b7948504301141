//! The same calls over a hash map of the standard library: a map from function and arguments to the place of the node, and
//! the nodes beside it, with the depth and the size of each.
use std::collections::HashMap;

const NUMERALS: u64 = 2000;
const STEP: u64 = 765_433;

#[derive(Clone, Copy, PartialEq, Eq, Hash)]
struct Key {
    function: u64,
    arguments: [u64; 2],
}

struct Node {
    key: Key,
    depth: u32,
    size: u64,
}

struct Map {
    places: HashMap<Key, u64>,
    nodes: Vec<Node>,
}

impl Map {
    fn place(&mut self, key: Key, depth: u32, size: u64) -> u64 {
        let next = self.nodes.len() as u64;
        let place = *self.places.entry(key).or_insert(next);
        if place == next {
            self.nodes.push(Node { key, depth, size });
        }
        place
    }

    fn call(&mut self, number: u64) -> u64 {
        let arguments = [number % NUMERALS, number / NUMERALS];
        let mut depth = 0;
        let mut size = 1u64;
        for a in arguments {
            let node = &self.nodes[a as usize];
            depth = depth.max(node.depth);
            size = size.saturating_add(node.size);
        }
        self.place(Key { function: 11, arguments }, depth + 1, size)
    }

    fn calls(&mut self, count: u64, step: u64) -> u64 {
        let mut sum = 0u64;
        let mut number = 0u64;
        for _ in 0..count {
            sum = sum.wrapping_add(self.call(number));
            number = number.wrapping_add(step) % count;
        }
        sum
    }

    /// Keeps the first nodes, and takes the others out one by one, the newest first.
    fn release(&mut self, first: usize) {
        while self.nodes.len() > first {
            let node = self.nodes.pop().unwrap();
            self.places.remove(&node.key);
        }
    }
}

/// The time of the processor that this thread has used, in milliseconds.
fn now() -> f64 {
    let text = std::fs::read_to_string("/proc/thread-self/schedstat").unwrap();
    text.split_whitespace().next().unwrap().parse::<f64>().unwrap() / 1e6
}

fn main() {
    let count = std::env::args().nth(1).and_then(|w| w.parse().ok()).unwrap_or(1_000_000);
    let mut map = Map { places: HashMap::new(), nodes: Vec::new() };
    for n in 0..NUMERALS {
        map.place(Key { function: 1000 + n, arguments: [0, 0] }, 1, 1);
    }
    let first = map.nodes.len();
    let begun = now();
    let made = map.calls(count, 1);
    let after_made = now();
    let found = map.calls(count, 1);
    let after_found = now();
    let other = map.calls(count, STEP);
    let after_other = now();
    map.release(first);
    let after_release = now();
    println!("{} {} {}", made == found, made == other, map.nodes.len() == first);
    eprintln!(
        "made {:.0} ms, found {:.0} ms, found in another order {:.0} ms, given back {:.0} ms",
        after_made - begun,
        after_found - after_made,
        after_other - after_found,
        after_release - after_other
    );
}
