//! Reading and rewriting of maximal frames: the proved library against a plain Rust implementation of the same rule, and against a copy of the bytes, in one run.
use std::hint::black_box;
use std::time::Instant;

unsafe extern "C" {
    fn frame_verdict_vehicles(p: *const u8, n: usize) -> u8;
    fn frame_verdict_queues(p: *const u8, n: usize) -> u8;
    fn frame_verdict_movements(p: *const u8, n: usize) -> u8;
    fn frame_rewrite_vehicles(p: *const u8, n: usize, o: *mut u8, m: usize) -> usize;
    fn frame_rewrite_queues(p: *const u8, n: usize, o: *mut u8, m: usize) -> usize;
    fn frame_rewrite_movements(p: *const u8, n: usize, o: *mut u8, m: usize) -> usize;
}

trait Kind: Copy {
    const CODE: u8;
    const WIDTH: usize;
    const EMPTY: Self;
    fn read(b: &[u8]) -> Result<Self, (u8, usize)>;
    fn write(&self, out: &mut [u8]);
}

fn word(b: &[u8], at: usize) -> u32 {
    u32::from_be_bytes([b[at], b[at + 1], b[at + 2], b[at + 3]])
}

#[derive(Clone, Copy)]
struct Vehicles(u64);
impl Kind for Vehicles {
    const CODE: u8 = 1;
    const WIDTH: usize = 8;
    const EMPTY: Self = Vehicles(0);
    fn read(b: &[u8]) -> Result<Self, (u8, usize)> {
        Ok(Vehicles(u64::from_be_bytes(b.try_into().unwrap())))
    }
    fn write(&self, out: &mut [u8]) {
        out.copy_from_slice(&self.0.to_be_bytes());
    }
}

#[derive(Clone, Copy)]
struct Queues([u32; 16]);
impl Kind for Queues {
    const CODE: u8 = 2;
    const WIDTH: usize = 64;
    const EMPTY: Self = Queues([0; 16]);
    fn read(b: &[u8]) -> Result<Self, (u8, usize)> {
        let mut counts = [0; 16];
        for (i, count) in counts.iter_mut().enumerate() {
            *count = word(b, 4 * i);
        }
        Ok(Queues(counts))
    }
    fn write(&self, out: &mut [u8]) {
        for (part, count) in out.chunks_exact_mut(4).zip(self.0) {
            part.copy_from_slice(&count.to_be_bytes());
        }
    }
}

#[derive(Clone, Copy)]
struct Movements([(u32, u32); 16], u32);
impl Kind for Movements {
    const CODE: u8 = 3;
    const WIDTH: usize = 132;
    const EMPTY: Self = Movements([(0, 0); 16], 0);
    fn read(b: &[u8]) -> Result<Self, (u8, usize)> {
        let mut pairs = [(0, 0); 16];
        let mut before: Option<(u32, u32)> = None;
        for i in 0..16 {
            let pair = (word(b, 8 * i), word(b, 8 * i + 4));
            if (pair.0 == 0) != (pair.1 == 0) {
                return Err((40, 8 * i));
            }
            if pair.0 != 0 {
                if let Some((key, _)) = before {
                    if key == 0 {
                        return Err((41, 8 * i));
                    }
                    if pair.0 <= key {
                        return Err((42, 8 * i));
                    }
                }
            }
            before = Some(pair);
            pairs[i] = pair;
        }
        Ok(Movements(pairs, word(b, 128)))
    }
    fn write(&self, out: &mut [u8]) {
        for (part, pair) in out.chunks_exact_mut(8).zip(self.0) {
            part[..4].copy_from_slice(&pair.0.to_be_bytes());
            part[4..].copy_from_slice(&pair.1.to_be_bytes());
        }
        out[128..].copy_from_slice(&self.1.to_be_bytes());
    }
}

const LIMIT: u32 = 1_000_000_000;

fn number(n: u8) -> bool {
    (1..=16).contains(&n)
}

// The number of the first condition that fails, or 0.
fn verdict<K: Kind>(b: &[u8]) -> u8 {
    if !(17..=1836).contains(&b.len()) { return 20; }
    if b[0] != 1 { return 21; }
    if b[1] != K::CODE { return 22; }
    if !number(b[2]) || !number(b[4]) || b[4] == b[2] || b[3] > 3 { return 23; }
    if b[5] > 1 { return 24; }
    if word(b, 6) > LIMIT || word(b, 10) > LIMIT { return 25; }
    let (slots, tokens, entries) = (b[14] as usize, b[15] as usize, b[16] as usize);
    if slots > 15 || tokens > 8 { return 26; }
    if if b[3] == 0 { !(1..=4).contains(&entries) } else { entries != 0 } { return 26; }
    if b.len() != 17 + 9 * slots + (10 + K::WIDTH) * tokens + (5 + K::WIDTH) * entries { return 27; }
    let mut before = 0;
    let mut rest = &b[17..];
    for _ in 0..slots {
        let (s, more) = rest.split_at(9);
        if s[0] <= before || s[0] > 16 || s[0] == b[2] { return 28; }
        if word(s, 1) > LIMIT || word(s, 5) > LIMIT { return 29; }
        before = s[0];
        rest = more;
    }
    let mut pair = (0, 0);
    for _ in 0..tokens {
        let (t, more) = rest.split_at(10 + K::WIDTH);
        if !number(t[0]) || !number(t[1]) || t[0] == t[1] || (t[0], t[1]) <= pair { return 28; }
        if word(t, 2) > LIMIT || word(t, 6) > LIMIT { return 29; }
        if K::read(&t[10..]).is_err() { return 30; }
        pair = (t[0], t[1]);
        rest = more;
    }
    let mut before = 0;
    let mut own = false;
    for _ in 0..entries {
        let (e, more) = rest.split_at(5 + K::WIDTH);
        if e[0] <= before || e[0] > 16 { return 28; }
        if word(e, 1) > LIMIT { return 29; }
        if K::read(&e[5..]).is_err() { return 30; }
        own |= e[0] == b[2];
        before = e[0];
        rest = more;
    }
    if b[3] == 0 && !own { 31 } else { 0 }
}

// Takes a lawful frame apart into records and writes it anew.
fn rewrite<K: Kind>(b: &[u8], out: &mut [u8]) -> usize {
    if verdict::<K>(b) != 0 || out.len() < b.len() { return 0; }
    let (slots, tokens, entries) = (b[14] as usize, b[15] as usize, b[16] as usize);
    let mut slot_list = [(0u8, 0u32, 0u32); 15];
    let mut token_list = [(0u8, 0u8, 0u32, 0u32, K::EMPTY); 8];
    let mut entry_list = [(0u8, 0u32, K::EMPTY); 4];
    let mut at = 17;
    for slot in &mut slot_list[..slots] {
        *slot = (b[at], word(b, at + 1), word(b, at + 5));
        at += 9;
    }
    for token in &mut token_list[..tokens] {
        *token = (b[at], b[at + 1], word(b, at + 2), word(b, at + 6), K::read(&b[at + 10..at + 10 + K::WIDTH]).unwrap_or(K::EMPTY));
        at += 10 + K::WIDTH;
    }
    for entry in &mut entry_list[..entries] {
        *entry = (b[at], word(b, at + 1), K::read(&b[at + 5..at + 5 + K::WIDTH]).unwrap_or(K::EMPTY));
        at += 5 + K::WIDTH;
    }
    out[..17].copy_from_slice(&b[..17]);
    let mut at = 17;
    for slot in &slot_list[..slots] {
        out[at] = slot.0;
        out[at + 1..at + 5].copy_from_slice(&slot.1.to_be_bytes());
        out[at + 5..at + 9].copy_from_slice(&slot.2.to_be_bytes());
        at += 9;
    }
    for token in &token_list[..tokens] {
        out[at] = token.0;
        out[at + 1] = token.1;
        out[at + 2..at + 6].copy_from_slice(&token.2.to_be_bytes());
        out[at + 6..at + 10].copy_from_slice(&token.3.to_be_bytes());
        token.4.write(&mut out[at + 10..at + 10 + K::WIDTH]);
        at += 10 + K::WIDTH;
    }
    for entry in &entry_list[..entries] {
        out[at] = entry.0;
        out[at + 1..at + 5].copy_from_slice(&entry.1.to_be_bytes());
        entry.2.write(&mut out[at + 5..at + 5 + K::WIDTH]);
        at += 5 + K::WIDTH;
    }
    at
}

// A maximal lawful frame: 15 slots, 8 tokens, 4 entries, full tallies.
fn maximal<K: Kind>(tally: &K) -> Vec<u8> {
    let mut b = vec![1, K::CODE, 1, 0, 2, 1];
    b.extend(999_999_999u32.to_be_bytes());
    b.extend(77u32.to_be_bytes());
    b.extend([15, 8, 4]);
    for source in 2..=16u8 {
        b.push(source);
        b.extend(1234u32.to_be_bytes());
        b.extend(u32::from(source).to_be_bytes());
    }
    let mut bytes = vec![0; K::WIDTH];
    tally.write(&mut bytes);
    for i in 0..8u8 {
        b.extend([1 + i, 10 + i % 7]);
        b.extend(3u32.to_be_bytes());
        b.extend(4u32.to_be_bytes());
        b.extend(&bytes);
    }
    for n in 1..=4u8 {
        b.push(n);
        b.extend(9u32.to_be_bytes());
        b.extend(&bytes);
    }
    b
}

// Nanoseconds a call, the best of several rounds.
fn timed(mut f: impl FnMut()) -> f64 {
    let mut best = f64::MAX;
    for _ in 0..15 {
        let start = Instant::now();
        for _ in 0..20_000 {
            f();
        }
        best = best.min(start.elapsed().as_nanos() as f64 / 20_000.0);
    }
    best
}

type Verdict = unsafe extern "C" fn(*const u8, usize) -> u8;
type Rewrite = unsafe extern "C" fn(*const u8, usize, *mut u8, usize) -> usize;

fn measure<K: Kind>(name: &str, tally: &K, theirs: Verdict, theirs_rewrite: Rewrite) {
    let frame = maximal(tally);
    let mut out = vec![0u8; 1836];
    let mut twin = vec![0u8; 1836];
    // the two agree on this frame and on every frame with one byte changed
    assert_eq!(verdict::<K>(&frame), 0, "{name}: the sample is lawful");
    for place in 0..frame.len() {
        for change in [1u8, 0x10, 0xff] {
            let mut other = frame.clone();
            other[place] ^= change;
            let ours = verdict::<K>(&other);
            let proved = unsafe { theirs(other.as_ptr(), other.len()) };
            assert_eq!(ours, proved, "{name}: place {place}, change {change}");
        }
    }
    for length in 0..frame.len() {
        assert_eq!(verdict::<K>(&frame[..length]), unsafe { theirs(frame.as_ptr(), length) });
    }
    let n = unsafe { theirs_rewrite(frame.as_ptr(), frame.len(), out.as_mut_ptr(), out.len()) };
    assert_eq!(&out[..n], &frame[..]);
    assert_eq!(rewrite::<K>(&frame, &mut twin), frame.len());
    assert_eq!(&twin[..n], &frame[..]);

    let copy = timed(|| {
        out[..frame.len()].copy_from_slice(black_box(&frame));
        black_box(&mut out);
    });
    let read = timed(|| {
        let f = black_box(&frame);
        black_box(unsafe { theirs(f.as_ptr(), f.len()) });
    });
    let read_twin = timed(|| {
        black_box(verdict::<K>(black_box(&frame)));
    });
    let again = timed(|| {
        let f = black_box(&frame);
        black_box(unsafe { theirs_rewrite(f.as_ptr(), f.len(), out.as_mut_ptr(), out.len()) });
    });
    let again_twin = timed(|| {
        black_box(rewrite::<K>(black_box(&frame), black_box(&mut twin)));
    });
    println!(
        "{name:<10} {:>5} bytes | copy {copy:>6.1} ns | read {read:>7.1} ns, plain {read_twin:>7.1} ns, ratio {:.2}, to copy {:.1} | read and write {again:>7.1} ns, plain {again_twin:>7.1} ns, ratio {:.2}",
        frame.len(), read / read_twin, read / copy, again / again_twin
    );
}

fn main() {
    measure("vehicles", &Vehicles(u64::MAX - 7), frame_verdict_vehicles, frame_rewrite_vehicles);
    measure("queues", &Queues([0x01020304; 16]), frame_verdict_queues, frame_rewrite_queues);
    let mut pairs = [(0, 0); 16];
    for (i, pair) in pairs.iter_mut().enumerate() {
        *pair = (3 * i as u32 + 1, 1_000 + i as u32);
    }
    measure("movements", &Movements(pairs, 12), frame_verdict_movements, frame_rewrite_movements);
}
