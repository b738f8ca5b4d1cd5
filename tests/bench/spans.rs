// What the program beside this file does, on std's BTreeMap with memory as it comes.
use std::collections::BTreeMap;
use std::time::Instant;

fn scramble(i: u64) -> u64 {
    let a = i.wrapping_mul(0x9E37_79B1) & 0x3f_ffff;
    let b = a ^ (a >> 11);
    let c = b.wrapping_mul(0x85EB_CA6B) & 0x3f_ffff;
    let d = c ^ (c >> 13);
    d % 4_194_304
}

// The site and first count of each span, with its last count and value. Spans never overlap.
#[derive(Default)]
struct Tree(BTreeMap<(u32, u64), (u64, u32)>);

impl Tree {
    fn get(&self, count: u64, site: u32) -> Option<u32> {
        let (key, (last, value)) = self.0.range(..=(site, count)).next_back()?;
        (key.0 == site && count <= *last).then_some(*value)
    }

    fn set(&mut self, site: u32, first: u64, last: u64, value: u32) {
        if let Some((key, old)) = self.0.range_mut(..(site, first)).next_back() {
            if key.0 == site && old.0 >= first {
                let (end, value) = *old;
                old.0 = first - 1;
                if end > last {
                    self.0.insert((site, last + 1), (end, value));
                }
            }
        }
        while let Some((key, old)) = self.0.range((site, first)..=(site, last)).next() {
            let (key, (end, value)) = (*key, *old);
            self.0.remove(&key);
            if end > last {
                self.0.insert((site, last + 1), (end, value));
            }
        }
        self.0.insert((site, first), (last, value));
    }
}

fn run(n: u64) {
    let mut map = Tree::default();
    let start = Instant::now();
    for i in 0..n {
        let count = scramble(i);
        map.set(1, count, count, (i % 1000) as u32);
    }
    println!("sets {n} {} 0", start.elapsed().as_nanos());
    let start = Instant::now();
    let mut sum = 0u32;
    for i in 0..n {
        sum = sum.wrapping_add(map.get(scramble(i.wrapping_mul(77)), 1).unwrap_or(1));
    }
    println!("look-ups {n} {} {sum}", start.elapsed().as_nanos());
    let start = Instant::now();
    for i in 0..n {
        map.set(2, i / 40 * 40, i, (i % 1000 / 40) as u32);
    }
    println!("extending {n} {} 0", start.elapsed().as_nanos());
    let n = n / 5;
    let start = Instant::now();
    map.set(3, 0, 0x400_0000, 7);
    for i in 0..n {
        let first = scramble(i) * 16;
        map.set(3, first, first + 7, (i % 1000) as u32);
    }
    let taken = start.elapsed().as_nanos();
    let mut sum = 0u32;
    for count in 0..400_000 {
        sum = sum.wrapping_add(map.get(count, 3).unwrap_or(1));
    }
    println!("cuts {n} {taken} {sum}");
    let start = Instant::now();
    map.set(3, 0, 0x400_0000, 7);
    println!("cover {n} {} 0", start.elapsed().as_nanos());
}

fn main() {
    run(1_000_000);
    run(4_000_000);
}
