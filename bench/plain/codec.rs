// Baseline of the codec: timed updates of the peers protocol 2.1, in plain
// Rust with std alone, with whose number that of a verified codec is compared.
//
//   build   rustc -O --edition 2021 codec.rs
//   run     ./codec [MESSAGES] [ROUNDS]   (default 200000 20)
//
// Two shapes of message: integer key with gpc0, and string key with
// server_key (names read and written in turn). Two ways each:
//   lean   into one growing buffer; out of a slice as borrowed parts
//   owned  one Vec per message; out of a slice as an owned value with its
//          own Vecs (the shape of `encode` and of `Update` in the public surface)
// Every round's decode is compared with what was encoded. The best round
// counts: the machine is shared. `fed` decodes the same bytes fed in pieces
// of 4,096, unfinished bytes kept over, as an engine's reads give them.
use std::hint::black_box;
use std::time::Instant;

fn len(n: u64) -> usize {
    if n < 240 { return 1; }
    let mut i = (n - 240) >> 4;
    let mut k = 2;
    while i >= 128 { i = (i - 128) >> 7; k += 1; }
    k
}

fn put(n: u64, out: &mut Vec<u8>) {
    if n < 240 { out.push(n as u8); return; }
    out.push(240 | (n & 15) as u8);
    let mut i = (n - 240) >> 4;
    while i >= 128 { out.push((i & 255) as u8 | 128); i = (i - 128) >> 7; }
    out.push(i as u8);
}

#[derive(Debug, Clone, Copy, PartialEq)]
enum Fault { Short, Over, BadKey, BadValue, Trailing, Unknown }

fn get(b: &[u8]) -> Result<(u64, &[u8]), Fault> {
    let (&first, mut rest) = b.split_first().ok_or(Fault::Short)?;
    if first < 240 { return Ok((first as u64, rest)); }
    let mut n = first as u128;
    let mut shift = 4;
    for _ in 0..9 {
        let (&c, r) = rest.split_first().ok_or(Fault::Short)?;
        rest = r;
        n += (c as u128) << shift;
        if c < 128 {
            return if n >> 64 == 0 { Ok((n as u64, rest)) } else { Err(Fault::Over) };
        }
        shift += 7;
    }
    Err(Fault::Over)
}

fn word(b: &[u8], f: Fault) -> Result<(u32, &[u8]), Fault> {
    match b.split_first_chunk::<4>() { Some((w, r)) => Ok((u32::from_be_bytes(*w), r)), None => Err(f) }
}

#[derive(Debug, Clone, PartialEq)]
enum Key { Int(u32), Str(Vec<u8>) }
#[derive(Debug, Clone, PartialEq)]
enum NameField { NotStored, NoName, Held(u8), Written(u8, Vec<u8>) }
#[derive(Debug, Clone, PartialEq)]
struct Update { number: Option<u32>, life: Option<u32>, key: Key, values: Vec<u64>, name: NameField }

#[derive(Clone, Copy, PartialEq)]
enum Shape { IntGpc0, StrName }

fn data_size(u: &Update) -> usize {
    let mut n = if u.number.is_some() { 4 } else { 0 } + if u.life.is_some() { 4 } else { 0 };
    n += match &u.key { Key::Int(_) => 4, Key::Str(s) => len(s.len() as u64) + s.len() };
    for &v in &u.values { n += len(v); }
    n + match &u.name {
        NameField::NotStored => 0,
        NameField::NoName => 1,
        NameField::Held(_) => 2,
        NameField::Written(_, s) => { let d = 1 + len(s.len() as u64) + s.len(); len(d as u64) + d }
    }
}

fn encode_into(u: &Update, out: &mut Vec<u8>) {
    out.push(10);
    out.push(match (u.number, u.life) { (Some(_), Some(_)) => 133, (None, Some(_)) => 134, (Some(_), None) => 128, _ => 129 });
    put(data_size(u) as u64, out);
    if let Some(n) = u.number { out.extend_from_slice(&n.to_be_bytes()); }
    if let Some(n) = u.life { out.extend_from_slice(&n.to_be_bytes()); }
    match &u.key {
        Key::Int(k) => out.extend_from_slice(&k.to_be_bytes()),
        Key::Str(s) => { put(s.len() as u64, out); out.extend_from_slice(s); }
    }
    for &v in &u.values { put(v, out); }
    match &u.name {
        NameField::NotStored => {}
        NameField::NoName => out.push(0),
        NameField::Held(id) => { out.push(1); out.push(*id); }
        NameField::Written(id, s) => {
            put((1 + len(s.len() as u64) + s.len()) as u64, out);
            out.push(*id); put(s.len() as u64, out); out.extend_from_slice(s);
        }
    }
}

fn encode(u: &Update) -> Vec<u8> {
    let d = data_size(u);
    let mut out = Vec::with_capacity(2 + len(d as u64) + d);
    encode_into(u, &mut out);
    out
}

/// The borrowed parts of one update.
#[derive(Clone, Copy, PartialEq)]
struct View<'a> { number: Option<u32>, life: Option<u32>, int: u32, text: &'a [u8], value: u64, slot: u8, name: Option<&'a [u8]> }

/// One whole message, or None if more bytes are needed.
fn view(b: &[u8], shape: Shape) -> Result<Option<(View<'_>, usize)>, Fault> {
    if b.len() < 3 { return Ok(None); }
    if b[0] != 10 { return Err(Fault::Unknown); }
    let kind = b[1];
    let (n, rest) = match get(&b[2..]) { Ok(x) => x, Err(Fault::Short) => return Ok(None), Err(f) => return Err(f) };
    if n > 16_384 { return Err(Fault::Over); }
    let n = n as usize;
    if rest.len() < n { return Ok(None); }
    let used = b.len() - rest.len() + n;
    let mut d = &rest[..n];
    let mut v = View { number: None, life: None, int: 0, text: &[], value: 0, slot: 0, name: None };
    if kind == 133 || kind == 128 { let (w, r) = word(d, Fault::BadKey)?; v.number = Some(w); d = r; }
    if kind == 133 || kind == 134 { let (w, r) = word(d, Fault::BadKey)?; v.life = Some(w); d = r; }
    match shape {
        Shape::IntGpc0 => {
            let (w, r) = word(d, Fault::BadKey)?; v.int = w;
            let (x, r) = get(r)?; if x >> 32 != 0 { return Err(Fault::BadValue); } v.value = x; d = r;
        }
        Shape::StrName => {
            let (l, r) = get(d)?; let l = l as usize;
            if l >= 33 || r.len() < l { return Err(Fault::BadKey); }
            v.text = &r[..l]; d = &r[l..];
            let (m, r) = get(d)?; let m = m as usize;
            if r.len() < m { return Err(Fault::BadValue); }
            let (mut inner, r) = r.split_at(m); d = r;
            if m > 0 {
                let (id, r) = get(inner)?; if !(1..=128).contains(&id) { return Err(Fault::BadValue); }
                v.slot = id as u8; inner = r;
                if !inner.is_empty() {
                    let (l, r) = get(inner)?;
                    if l != r.len() as u64 || l == 0 || l > 255 || r.contains(&0) { return Err(Fault::BadValue); }
                    v.name = Some(r);
                }
            }
        }
    }
    if !d.is_empty() { return Err(Fault::Trailing); }
    Ok(Some((v, used)))
}

fn owned(v: &View, shape: Shape) -> Update {
    match shape {
        Shape::IntGpc0 => Update { number: v.number, life: v.life, key: Key::Int(v.int), values: vec![v.value], name: NameField::NotStored },
        Shape::StrName => Update {
            number: v.number, life: v.life, key: Key::Str(v.text.to_vec()), values: Vec::new(),
            name: match (v.slot, v.name) { (0, _) => NameField::NoName, (id, None) => NameField::Held(id), (id, Some(s)) => NameField::Written(id, s.to_vec()) },
        },
    }
}

fn batch(shape: Shape, n: usize) -> Vec<Update> {
    let mut seed = 0x9E37_79B9_7F4A_7C15u64;
    let mut next = || { seed ^= seed << 13; seed ^= seed >> 7; seed ^= seed << 17; seed };
    (0..n).map(|i| {
        let number = if i % 200 == 0 { Some(i as u32 + 1) } else { None };
        match shape {
            Shape::IntGpc0 => {
                let bits = next() % 32;
                Update { number, life: Some(30_000), key: Key::Int(next() as u32), values: vec![(next() as u32 >> bits) as u64], name: NameField::NotStored }
            }
            Shape::StrName => {
                let l = 8 + (next() % 24) as usize;
                let key = (0..l).map(|_| b'a' + (next() % 26) as u8).collect();
                let slot = 1 + (next() % 128) as u8;
                let name = if next() % 4 == 0 { NameField::Written(slot, format!("server-{:04}", next() % 1000).into_bytes()) } else { NameField::Held(slot) };
                Update { number, life: Some(30_000), key: Key::Str(key), values: vec![], name }
            }
        }
    }).collect()
}

fn report(label: &str, msgs: usize, bytes: usize, best: f64) {
    println!("{label:<28} {:>8.2} M msg/s {:>9.1} MB/s {:>7.1} ns/msg", msgs as f64 / best / 1e6, bytes as f64 / best / 1e6, best / msgs as f64 * 1e9);
}

fn best<F: FnMut()>(rounds: usize, mut f: F) -> f64 {
    (0..rounds).map(|_| { let t = Instant::now(); f(); t.elapsed().as_secs_f64() }).fold(f64::MAX, f64::min)
}

fn run(name: &str, shape: Shape, n: usize, rounds: usize) {
    let list = batch(shape, n);
    let mut wire = Vec::new();
    for u in &list { encode_into(u, &mut wire); }
    println!("{name}: {n} messages, {} bytes, {:.2} bytes each", wire.len(), wire.len() as f64 / n as f64);

    let mut out = Vec::with_capacity(wire.len());
    report("  encode lean", n, wire.len(), best(rounds, || { out.clear(); for u in &list { encode_into(black_box(u), &mut out); } black_box(&out); }));
    assert!(out == wire);
    report("  encode owned", n, wire.len(), best(rounds, || { for u in &list { black_box(encode(black_box(u))); } }));
    report("  decode lean", n, wire.len(), best(rounds, || {
        let mut b = &wire[..]; let mut k = 0;
        while let Ok(Some((v, used))) = view(b, shape) { black_box(&v); b = &b[used..]; k += 1; }
        assert!(k == n && b.is_empty());
    }));
    report("  decode owned", n, wire.len(), best(rounds, || {
        let mut b = &wire[..]; let mut k = 0;
        while let Ok(Some((v, used))) = view(b, shape) { black_box(owned(&v, shape)); b = &b[used..]; k += 1; }
        assert!(k == n && b.is_empty());
    }));
    report("  decode owned, fed 4096", n, wire.len(), best(rounds, || {
        let mut kept: Vec<u8> = Vec::new(); let mut k = 0;
        for piece in wire.chunks(4096) {
            kept.extend_from_slice(piece);
            let mut at = 0;
            while let Ok(Some((v, used))) = view(&kept[at..], shape) { black_box(owned(&v, shape)); at += used; k += 1; }
            kept.drain(..at);
        }
        assert!(k == n && kept.is_empty());
    }));
    let mut b = &wire[..];
    for u in &list { let (v, used) = view(b, shape).unwrap().unwrap(); assert!(owned(&v, shape) == *u); b = &b[used..]; }
}

fn main() {
    // The worked spellings (integer-spellings, integer-limits) and the messages of two-updates.
    for (n, s) in [(239u64, "EF"), (240, "F000"), (2287, "FF7F"), (2288, "F08000"), (264432, "F0808000"), (u64::MAX, "FFF0FEFEFEFEFEFEFE0E")] {
        let mut v = Vec::new(); put(n, &mut v);
        let hex: String = v.iter().map(|b| format!("{b:02X}")).collect();
        assert!(hex == s && len(n) == v.len() && get(&v).map(|x| x.0) == Ok(n), "{n}");
    }
    let u = Update { number: None, life: Some(30_000), key: Key::Int(8), values: vec![240], name: NameField::NotStored };
    assert!(encode(&u) == [0x0A, 0x86, 0x0A, 0, 0, 0x75, 0x30, 0, 0, 0, 8, 0xF0, 0]);
    let mut words = std::env::args().skip(1).map(|w| w.parse::<usize>().expect("a number"));
    let n = words.next().unwrap_or(200_000);
    let rounds = words.next().unwrap_or(20);
    run("integer key, gpc0", Shape::IntGpc0, n, rounds);
    run("string key, server_key", Shape::StrName, n, rounds);
}
