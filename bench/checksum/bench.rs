// Times three ways of CRC-32C in one run: bit by bit and sixteen bytes at a time in Rust, and crates/crc32c. `run` builds and starts it.
use std::hint::black_box;
use std::time::Instant;

const POLYNOMIAL: u32 = 0x82F6_3B78;

const fn bit(c: u32) -> u32 {
    (c >> 1) ^ ((c & 1) * POLYNOMIAL)
}

const fn tables() -> [[u32; 256]; 16] {
    let mut t = [[0u32; 256]; 16];
    let mut b = 0;
    while b < 256 {
        let mut c = b as u32;
        let mut k = 0;
        while k < 8 {
            c = bit(c);
            k += 1;
        }
        t[0][b] = c;
        b += 1;
    }
    let mut r = 1;
    while r < 16 {
        let mut b = 0;
        while b < 256 {
            let c = t[r - 1][b];
            t[r][b] = (c >> 8) ^ t[0][(c & 255) as usize];
            b += 1;
        }
        r += 1;
    }
    t
}

static T: [[u32; 256]; 16] = tables();

fn rust_bits(mut c: u32, s: &[u8]) -> u32 {
    for &b in s {
        c ^= b as u32;
        for _ in 0..8 {
            c = bit(c);
        }
    }
    c
}

fn rust_sixteen(mut c: u32, s: &[u8]) -> u32 {
    let mut parts = s.chunks_exact(16);
    for p in &mut parts {
        let mut r = 0;
        for k in (4..16).rev() {
            r ^= T[15 - k][p[k] as usize];
        }
        for k in (0..4).rev() {
            r ^= T[15 - k][((c >> (8 * k)) as u8 ^ p[k]) as usize];
        }
        c = r;
    }
    for &b in parts.remainder() {
        c = (c >> 8) ^ T[0][((c ^ b as u32) & 255) as usize];
    }
    c
}

// a Rattle slice is a pointer and a length
#[link(name = "crc32c_c", kind = "static")]
extern "C" {
    fn crc32c_update(register: u32, s: *const u8, n: usize) -> u32;
}

fn rattle(c: u32, s: &[u8]) -> u32 {
    unsafe { crc32c_update(c, s.as_ptr(), s.len()) }
}

const WAYS: [(&str, fn(u32, &[u8]) -> u32); 3] =
    [("Rust, bit by bit", rust_bits), ("Rust, by sixteen bytes", rust_sixteen), ("Rattle, by sixteen bytes", rattle)];
const SIZES: [(&str, usize); 6] =
    [("36 B", 36), ("64 B", 64), ("300 B", 300), ("1 KB", 1 << 10), ("48 KB", 48 << 10), ("8 MB", 8 << 20)];
const ROUNDS: usize = 41;

fn main() {
    let mut seed = 1u64;
    let data: Vec<u8> = (0..8 << 20)
        .map(|_| {
            seed = seed.wrapping_mul(6364136223846793005).wrapping_add(1442695040888963407);
            (seed >> 56) as u8
        })
        .collect();
    assert_eq!(!rust_bits(!0, b"123456789"), 0xE306_9283);
    for n in (0..600).chain([1 << 10, 4095, 48 << 10]) {
        for at in 0..3 {
            let (c, s) = (seed as u32 ^ n as u32, &data[at..at + n]);
            for (name, f) in WAYS {
                assert_eq!(f(c, s), rust_bits(c, s), "{name}, {n} bytes from {at}");
            }
        }
    }
    println!("all three agree on 603 lengths from 3 places each");
    println!("medians of {ROUNDS} rounds, in which the ways take turns; the bytes are read over and over, and no buffer is written or cleared");
    print!("{:<26}", "ns a call (MB/s)");
    for (size, _) in SIZES {
        print!("{size:>18}");
    }
    println!();
    let mut medians = [[0f64; SIZES.len()]; WAYS.len()];
    for (j, (_, n)) in SIZES.iter().enumerate() {
        let s = &data[..*n];
        let mut times = vec![vec![]; WAYS.len()];
        for _ in 0..ROUNDS {
            for (k, (_, f)) in WAYS.iter().enumerate() {
                let turns = ((if k == 0 { 1 << 17 } else { 1 << 21 }) / n).max(1);
                let start = Instant::now();
                let mut c = !0;
                for _ in 0..turns {
                    c = f(black_box(c), black_box(s));
                }
                black_box(c);
                times[k].push(start.elapsed().as_nanos() as f64 / turns as f64);
            }
        }
        for (k, t) in times.iter_mut().enumerate() {
            t.sort_by(f64::total_cmp);
            medians[k][j] = t[ROUNDS / 2];
        }
    }
    for (k, (name, _)) in WAYS.iter().enumerate() {
        print!("{name:<26}");
        for (j, (_, n)) in SIZES.iter().enumerate() {
            print!("{:>18}", format!("{:.1} ({:.0})", medians[k][j], *n as f64 * 1000.0 / medians[k][j]));
        }
        println!();
    }
    for (name, above, below) in [("Rattle / Rust by sixteen", 2, 1), ("bit by bit / Rattle", 0, 2)] {
        print!("{name:<26}");
        for j in 0..SIZES.len() {
            print!("{:>18.2}", medians[above][j] / medians[below][j]);
        }
        println!();
    }
}
