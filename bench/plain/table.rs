// Baseline of the tables: `track` (add to gpc0, new number, new end), `copy`
// of 512 and the ends that purge a full table, in plain Rust with std alone.
//
//   build   rustc -O --edition 2021 table.rs
//   run     ./table [OPS] [ROUNDS]          (default 1000000 3)
//
// Five tables with the same rules (docs/FORMATS.md, section 7):
//   list   a Vec of rows in ascending order of key, everything else by search
//   btree  BTreeMap by key, BTreeMap by number, BTreeSet by end, number, key
//   hash   HashMap by key (std's hasher), the same two ordered indexes
//   lazy   HashMap by key, VecDeque of numbers and a heap of ends from which
//          what is out of date is dropped when it is met
//   swept  rows in slots, in blocks; BTreeMap from key to slot, a log of
//          numbers with their slots that is swept a little at each change,
//          BTreeSet by end, number: the form of the crate table_stock
// `history` adds one event and one reply per call to a Vec, as a cell keeps.
// Every table is run against `list` on one mixed list of calls first.
use std::cmp::Reverse;
use std::collections::{BTreeMap, BTreeSet, BinaryHeap, HashMap, VecDeque};
use std::hash::Hash;
use std::hint::black_box;
use std::sync::Mutex;
use std::time::Instant;

const EXPIRE: u64 = 30_000;
const M: u64 = 1 << 32;

trait Key: Clone + Ord + Hash + Send { fn made(n: u64) -> Self; }
impl Key for u32 { fn made(n: u64) -> u32 { n as u32 } }
impl Key for Vec<u8> { fn made(n: u64) -> Vec<u8> { format!("client-{n:010}").into_bytes() } }

#[derive(Clone, Debug, PartialEq)]
struct Row { number: u32, ends: u64, gpc0: u32 }

trait Table<K: Key> {
    fn new(size: usize) -> Self;
    fn track(&mut self, key: &K, add: u32, moment: u64) -> Row;
    /// The rows above `n` in ascending order of number, at most `limit`.
    fn copy(&mut self, n: u32, limit: usize) -> Vec<(u32, K, Row)>;
    fn len(&self) -> usize;
}

fn next_row(old: Option<&Row>, number: u32, add: u32, moment: u64) -> Row {
    let gpc0 = match old { Some(r) if r.ends > moment => r.gpc0, _ => 0 };
    Row { number, ends: moment + EXPIRE, gpc0: gpc0.saturating_add(add) }
}

struct List<K> { size: usize, last: u32, rows: Vec<(K, Row)> }
impl<K: Key> Table<K> for List<K> {
    fn new(size: usize) -> Self { List { size, last: 0, rows: Vec::new() } }
    fn track(&mut self, key: &K, add: u32, moment: u64) -> Row {
        self.last += 1;
        let at = match self.rows.binary_search_by(|x| x.0.cmp(key)) {
            Ok(at) => at,
            Err(_) => {
                if self.rows.len() == self.size {
                    let out = (0..self.size).min_by_key(|&i| (self.rows[i].1.ends, self.rows[i].1.number)).unwrap();
                    self.rows.remove(out);
                }
                let at = self.rows.partition_point(|x| x.0 < *key);
                self.rows.insert(at, (key.clone(), Row { number: 0, ends: 0, gpc0: 0 }));
                at
            }
        };
        let row = next_row(Some(&self.rows[at].1), self.last, add, moment);
        self.rows[at].1 = row.clone();
        row
    }
    fn copy(&mut self, n: u32, limit: usize) -> Vec<(u32, K, Row)> {
        let mut v: Vec<_> = self.rows.iter().filter(|x| x.1.number > n).map(|x| (x.1.number, x.0.clone(), x.1.clone())).collect();
        v.sort_by_key(|x| x.0);
        v.truncate(limit);
        v
    }
    fn len(&self) -> usize { self.rows.len() }
}

macro_rules! indexed {
    ($name:ident, $map:ident) => {
        struct $name<K> { size: usize, last: u32, rows: $map<K, Row>, numbers: BTreeMap<u32, K>, ends: BTreeSet<(u64, u32, K)> }
        impl<K: Key> Table<K> for $name<K> {
            fn new(size: usize) -> Self { $name { size, last: 0, rows: $map::new(), numbers: BTreeMap::new(), ends: BTreeSet::new() } }
            fn track(&mut self, key: &K, add: u32, moment: u64) -> Row {
                self.last += 1;
                let row = match self.rows.get_mut(key) {
                    Some(r) => {
                        self.numbers.remove(&r.number);
                        self.ends.remove(&(r.ends, r.number, key.clone()));
                        *r = next_row(Some(r), self.last, add, moment);
                        r.clone()
                    }
                    None => {
                        if self.rows.len() == self.size {
                            let (_, number, out) = self.ends.pop_first().unwrap();
                            self.numbers.remove(&number);
                            self.rows.remove(&out);
                        }
                        let r = next_row(None, self.last, add, moment);
                        self.rows.insert(key.clone(), r.clone());
                        r
                    }
                };
                self.numbers.insert(row.number, key.clone());
                self.ends.insert((row.ends, row.number, key.clone()));
                row
            }
            fn copy(&mut self, n: u32, limit: usize) -> Vec<(u32, K, Row)> {
                self.numbers.range(n + 1..).take(limit).map(|(n, k)| (*n, k.clone(), self.rows[k].clone())).collect()
            }
            fn len(&self) -> usize { self.rows.len() }
        }
    };
}
indexed!(Btree, BTreeMap);
indexed!(Hashed, HashMap);

struct Lazy<K> { size: usize, last: u32, rows: HashMap<K, Row>, numbers: VecDeque<(u32, K)>, ends: BinaryHeap<Reverse<(u64, u32, K)>> }
impl<K: Key> Table<K> for Lazy<K> {
    fn new(size: usize) -> Self { Lazy { size, last: 0, rows: HashMap::new(), numbers: VecDeque::new(), ends: BinaryHeap::new() } }
    fn track(&mut self, key: &K, add: u32, moment: u64) -> Row {
        self.last += 1;
        let row = match self.rows.get_mut(key) {
            Some(r) => { *r = next_row(Some(r), self.last, add, moment); r.clone() }
            None => {
                while self.rows.len() == self.size {
                    let Reverse((_, number, out)) = self.ends.pop().unwrap();
                    if self.rows.get(&out).is_some_and(|r| r.number == number) { self.rows.remove(&out); }
                }
                let r = next_row(None, self.last, add, moment);
                self.rows.insert(key.clone(), r.clone());
                r
            }
        };
        self.numbers.push_back((row.number, key.clone()));
        self.ends.push(Reverse((row.ends, row.number, key.clone())));
        if self.numbers.len() > 2 * self.size + 64 {
            let rows = &self.rows;
            self.numbers.retain(|(n, k)| rows.get(k).is_some_and(|r| r.number == *n));
            self.ends = self.numbers.iter().map(|(n, k)| Reverse((rows[k].ends, *n, k.clone()))).collect();
        }
        row
    }
    fn copy(&mut self, n: u32, limit: usize) -> Vec<(u32, K, Row)> {
        let from = self.numbers.partition_point(|x| x.0 <= n);
        self.numbers.range(from..).filter(|(n, k)| self.rows.get(k).is_some_and(|r| r.number == *n))
            .take(limit).map(|(n, k)| (*n, k.clone(), self.rows[k].clone())).collect()
    }
    fn len(&self) -> usize { self.rows.len() }
}

struct Swept<K> {
    size: usize,
    last: u32,
    keys: BTreeMap<K, usize>,
    slots: Vec<Vec<Option<(K, Row)>>>,
    vacant: Vec<usize>,
    settled: VecDeque<(u32, usize)>,
    log: VecDeque<(u32, usize)>,
    ends: BTreeSet<(u64, u32)>,
}
impl<K: Key> Swept<K> {
    const BLOCK: usize = 1024;
    fn slot(&mut self, at: usize) -> &mut Option<(K, Row)> { &mut self.slots[at / Self::BLOCK][at % Self::BLOCK] }
    fn row(&self, entry: (u32, usize)) -> Option<&(K, Row)> {
        self.slots[entry.1 / Self::BLOCK][entry.1 % Self::BLOCK].as_ref().filter(|x| x.1.number == entry.0)
    }
    fn above(&self, n: u32) -> impl Iterator<Item = &(K, Row)> {
        let settled = self.settled.range(self.settled.partition_point(|x| x.0 <= n)..);
        settled.chain(self.log.range(self.log.partition_point(|x| x.0 <= n)..)).filter_map(|x| self.row(*x))
    }
    fn vacate_first(&mut self) {
        let (_, number) = self.ends.pop_first().unwrap();
        let key = self.above(number - 1).next().unwrap().0.clone();
        let at = self.keys.remove(&key).unwrap();
        *self.slot(at) = None;
        self.vacant.push(at);
    }
    fn new_slot(&mut self) -> usize {
        if let Some(at) = self.vacant.pop() { return at; }
        if self.slots.last().is_none_or(|b| b.len() == Self::BLOCK) { self.slots.push(Vec::with_capacity(Self::BLOCK)); }
        let block = self.slots.len() - 1;
        self.slots[block].push(None);
        block * Self::BLOCK + self.slots[block].len() - 1
    }
    fn sweep(&mut self) {
        if self.settled.is_empty() && self.log.len() < 2 * self.keys.len() + 64 { return; }
        for _ in 0..4 {
            match self.log.pop_front() {
                Some(x) => if self.row(x).is_some() { self.settled.push_back(x); },
                None => { std::mem::swap(&mut self.settled, &mut self.log); return; }
            }
        }
    }
}
impl<K: Key> Table<K> for Swept<K> {
    fn new(size: usize) -> Self {
        let (settled, log) = (VecDeque::new(), VecDeque::new());
        Swept { size, last: 0, keys: BTreeMap::new(), slots: Vec::new(), vacant: Vec::new(), settled, log, ends: BTreeSet::new() }
    }
    fn track(&mut self, key: &K, add: u32, moment: u64) -> Row {
        self.last += 1;
        let last = self.last;
        let (at, row) = match self.keys.get(key) {
            Some(&at) => {
                let r = &mut self.slot(at).as_mut().unwrap().1;
                let old = (r.ends, r.number);
                *r = next_row(Some(r), last, add, moment);
                let row = r.clone();
                self.ends.remove(&old);
                (at, row)
            }
            None => {
                if self.keys.len() == self.size { self.vacate_first(); }
                let (at, row) = (self.new_slot(), next_row(None, last, add, moment));
                self.keys.insert(key.clone(), at);
                *self.slot(at) = Some((key.clone(), row.clone()));
                (at, row)
            }
        };
        self.ends.insert((row.ends, row.number));
        self.log.push_back((row.number, at));
        self.sweep();
        row
    }
    fn copy(&mut self, n: u32, limit: usize) -> Vec<(u32, K, Row)> {
        self.above(n).take(limit).map(|(k, r)| (r.number, k.clone(), r.clone())).collect()
    }
    fn len(&self) -> usize { self.keys.len() }
}

struct Random(u64);
impl Random { fn next(&mut self) -> u64 { self.0 ^= self.0 << 13; self.0 ^= self.0 >> 7; self.0 ^= self.0 << 17; self.0 } }

fn same<K: Key, T: Table<K>>() {
    let (mut a, mut b) = (List::<K>::new(20), T::new(20));
    let mut r = Random(7);
    for i in 0..20_000u64 {
        let (k, add, m) = (K::made(r.next() % 50), (r.next() % 9) as u32, M + i * (i % 3) * 7 / 3);
        assert!(a.track(&k, add, m.max(M + i * 4)) == b.track(&k, add, m.max(M + i * 4)) && a.len() == b.len());
        if i % 97 == 0 {
            let n = (i as u32).saturating_sub(15);
            assert!(a.copy(n, 12).iter().map(|x| (x.0, &x.2)).eq(b.copy(n, 12).iter().map(|x| (x.0, &x.2))));
        }
    }
}

fn line(label: String, n: usize, seconds: f64) {
    println!("{label:<34} {:>8.3} M/s {:>9.1} ns each", n as f64 / seconds / 1e6, seconds / n as f64 * 1e9);
}

fn best<T>(rounds: usize, mut make: impl FnMut() -> T, mut f: impl FnMut(&mut T)) -> f64 {
    (0..rounds).map(|_| { let mut t = make(); let s = Instant::now(); f(&mut t); s.elapsed().as_secs_f64() }).fold(f64::MAX, f64::min)
}

fn filled<K: Key, T: Table<K>>(size: usize) -> T {
    let mut t = T::new(size);
    for i in 0..size as u64 { t.track(&K::made(i), 1, M); }
    t
}

fn run<K: Key, T: Table<K>>(name: &str, size: usize, ops: usize, rounds: usize) {
    let mut r = Random(99);
    let hot: Vec<K> = (0..ops).map(|_| K::made(r.next() % size as u64)).collect();
    let cold: Vec<K> = (0..ops).map(|i| K::made((size + i) as u64)).collect();
    line(format!("{name} {size} track held"), ops, best(rounds, || filled::<K, T>(size), |t| for (i, k) in hot.iter().enumerate() { black_box(t.track(k, 1, M + i as u64 / 1000)); }));
    line(format!("{name} {size} track new, purge"), ops, best(rounds, || filled::<K, T>(size), |t| for (i, k) in cold.iter().enumerate() { black_box(t.track(k, 1, M + i as u64 / 1000)); }));
    line(format!("{name} {size} held + history"), ops, best(rounds, || (filled::<K, T>(size), Vec::new()), |t| for (i, k) in hot.iter().enumerate() {
        let m = M + i as u64 / 1000;
        let row = t.0.track(k, 1, m);
        t.1.push(((k.clone(), 1u32, m), row));
    }));
    line(format!("{name} {size} copy 512, rows"), size, best(rounds, || filled::<K, T>(size), |t| {
        let (mut n, mut k) = (0, 0);
        loop { let b = t.copy(n, 512); match b.last() { Some(x) => { n = x.0; k += b.len(); black_box(&b); } None => break } }
        assert!(k == size);
    }));
}

fn threads(tables: usize, workers: usize, ops: usize, rounds: usize) {
    let size = 100_000;
    let s = best(rounds, || (0..tables).map(|_| Mutex::new(filled::<u32, Btree<u32>>(size))).collect::<Vec<_>>(), |ts| {
        let ts = &*ts;
        std::thread::scope(|sc| for w in 0..workers { sc.spawn(move || {
            let mut r = Random(w as u64 + 1);
            for i in 0..ops / workers { black_box(ts[w % tables].lock().unwrap().track(&((r.next() % size as u64) as u32), 1, M + i as u64 / 1000)); }
        }); });
    });
    line(format!("btree {size}, {tables} lock(s), {workers} thread(s)"), ops, s);
}

fn main() {
    let mut words = std::env::args().skip(1).map(|w| w.parse::<usize>().expect("a number"));
    let ops = words.next().unwrap_or(1_000_000);
    let rounds = words.next().unwrap_or(3);
    same::<u32, Btree<u32>>(); same::<u32, Hashed<u32>>(); same::<u32, Lazy<u32>>(); same::<Vec<u8>, Btree<Vec<u8>>>();
    same::<u32, Swept<u32>>(); same::<Vec<u8>, Swept<Vec<u8>>>();
    println!("integer keys");
    run::<u32, List<u32>>("list", 1000, ops / 10, rounds);
    for size in [1_000, 100_000, 1_000_000] {
        run::<u32, Btree<u32>>("btree", size, ops, rounds);
        run::<u32, Hashed<u32>>("hash", size, ops, rounds);
        run::<u32, Lazy<u32>>("lazy", size, ops, rounds);
        run::<u32, Swept<u32>>("swept", size, ops, rounds);
    }
    println!("string keys of 17 bytes");
    run::<Vec<u8>, Btree<Vec<u8>>>("btree", 100_000, ops, rounds);
    run::<Vec<u8>, Hashed<Vec<u8>>>("hash", 100_000, ops, rounds);
    run::<Vec<u8>, Swept<Vec<u8>>>("swept", 100_000, ops, rounds);
    println!("threads, integer keys, tracks of held keys");
    for (tables, workers) in [(1, 1), (1, 2), (1, 4), (4, 4)] { threads(tables, workers, ops, rounds); }
}
