// Baseline of the learner: the same two streams as bench/ (100,000 timed updates of ascending keys), or random keys with
// `random`, decoded in plain Rust (std alone) and put into a BTreeMap of owned keys and rows, names copied out of slots.
//   rustc -O --edition 2021 learner.rs && ./learner [random]
use std::collections::BTreeMap;
use std::hint::black_box;
use std::time::Instant;
#[derive(Clone, Debug, PartialEq, Eq, PartialOrd, Ord)]
enum Key { Int(u32), Str(Vec<u8>) }
#[derive(Clone, Debug)]
enum Cell { Count(u64), #[allow(dead_code)] Rate(u64, u32, u32) }
#[derive(Clone, Debug)]
#[allow(dead_code)]
struct Row { number: u32, ends: Option<u64>, cells: Vec<Cell>, name: Option<Vec<u8>>, learned: bool }
fn get(b: &[u8]) -> Option<(u64, &[u8])> {
    let f = *b.first()? as u64;
    if f < 240 { return Some((f, &b[1..])); }
    let (mut n, mut s, mut i) = (f, 4, 1);
    loop { let x = *b.get(i)? as u64; n = n.wrapping_add(x << s); s += 7; i += 1; if x < 128 { return Some((n, &b[i..])); } if i > 10 { return None; } }
}
fn be(b: &[u8]) -> u32 { u32::from_be_bytes([b[0], b[1], b[2], b[3]]) }
fn feed(mut b: &[u8], named: bool, rows: &mut BTreeMap<Key, Row>) -> usize {
    let mut slots: Vec<Option<Vec<u8>>> = vec![None; 128];
    let mut n = 0;
    while b.len() >= 3 {
        let kind = b[1];
        let (len, rest) = get(&b[2..]).unwrap();
        let d = &rest[..len as usize]; b = &rest[len as usize..];
        if kind != 0x85 { continue; }
        let (number, life, d) = (be(d), be(&d[4..]), &d[8..]);
        let (key, cells, name) = if named {
            let (l, r) = get(d).unwrap(); let (k, r) = r.split_at(l as usize);
            let (m, r) = get(r).unwrap(); let (inner, _) = r.split_at(m as usize);
            let slot = inner[0] as usize - 1;
            if inner.len() > 1 { let (l, r) = get(&inner[1..]).unwrap(); slots[slot] = Some(r[..l as usize].to_vec()); }
            (Key::Str(k.to_vec()), Vec::new(), slots[slot].clone())
        } else { let (v, _) = get(&d[4..]).unwrap(); (Key::Int(be(d)), vec![Cell::Count(v)], None) };
        rows.insert(key, Row { number, ends: Some(4294967296 + life as u64), cells, name, learned: true }); n += 1;
    }
    n
}
fn stream(named: bool, random: bool) -> Vec<u8> {
    let mut s = if named { b"\x0A\x82\x0D\x03\x02st\x06\x21\xF0\xF1\xFE\x00\xF0\xC4\x0D".to_vec() } else { b"\x0A\x82\x0A\x01\x02t1\x02\x04\x04\xF0\xC4\x0D".to_vec() };
    let mut x = 0x9E3779B97F4A7C15u64;
    for i in 1..=100_000u32 {
        x ^= x << 13; x ^= x >> 7; x ^= x << 17;
        let k = if random { (x >> 20) as u32 % 100_000_000 } else { i };
        if named {
            let slot = (i % 128) as u8 + 1; let w = i <= 128;
            s.extend_from_slice(if w { b"\x0A\x85\x18" } else { b"\x0A\x85\x13" }); s.extend(i.to_be_bytes()); s.extend([0, 0, 0x75, 0x30]);
            s.push(8); s.extend(format!("{k:08}").bytes());
            if w { s.extend([6, slot, 4, b's', b'r', b'v', slot]); } else { s.extend([1, slot]); }
        } else { s.extend(b"\x0A\x85\x0D"); s.extend(i.to_be_bytes()); s.extend([0, 0, 0x75, 0x30]); s.extend(k.to_be_bytes()); s.push((i % 240) as u8); }
    }
    s
}
fn main() {
    let random = std::env::args().nth(1).is_some();
    for named in [false, true] {
        let s = stream(named, random); let mut best = f64::MAX;
        for _ in 0..12 { let mut rows = BTreeMap::new(); let t = Instant::now(); let n = feed(black_box(&s), named, &mut rows); best = best.min(t.elapsed().as_secs_f64()); assert_eq!(n, 100_000); black_box(&rows); }
        println!("{} keys{}: {:.2} M rows/s, {:.1} MB/s", if named { "string" } else { "integer" }, if random { ", random" } else { "" }, 0.1 / best, s.len() as f64 / best / 1e6);
    }
}
