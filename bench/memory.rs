//! The loops of `memory.rt.txt` in plain Rust, to compare with.
#[inline(never)]
fn loads(memory: &[u8], rounds: u32) -> u64 {
    let mut sum = 0u64;
    let mut seed = 1u32;
    for _ in 0..rounds {
        seed = seed.wrapping_mul(1_664_525).wrapping_add(1_013_904_223);
        let at = (seed >> 14) as usize;
        let word = memory.get(at..at + 4).map(|bytes| u32::from_le_bytes(bytes.try_into().unwrap()));
        sum = sum.wrapping_add(word.map_or(1, u64::from));
    }
    sum
}

#[inline(never)]
fn stores(memory: &mut [u8], rounds: u32) -> u64 {
    let mut refused = 0u64;
    let mut seed = 1u32;
    for _ in 0..rounds {
        seed = seed.wrapping_mul(1_664_525).wrapping_add(1_013_904_223);
        let at = (seed >> 14) as usize;
        match memory.get_mut(at..at + 4) {
            Some(bytes) => bytes.copy_from_slice(&seed.to_le_bytes()),
            None => refused = refused.wrapping_add(1),
        }
    }
    refused
}

#[inline(never)]
fn mark(memory: &[u8]) -> u64 {
    let mut mark = 0u64;
    for (place, byte) in memory.iter().enumerate() {
        mark = mark.wrapping_add((place as u64 + 1) * u64::from(*byte));
    }
    mark
}

#[inline(never)]
fn marks(memory: &mut [u8], rounds: u32) -> u64 {
    let mut sum = 0u64;
    for round in 0..rounds {
        memory[..4].copy_from_slice(&round.to_le_bytes());
        sum = sum.wrapping_add(mark(memory));
    }
    sum
}

#[inline(always)]
fn apply(code: u8, a: u64, b: u64) -> u64 {
    match code {
        0x7c => a.wrapping_add(b),
        0x7d => a.wrapping_sub(b),
        0x7e => a.wrapping_mul(b),
        0x83 => a & b,
        0x84 => a | b,
        0x85 => a ^ b,
        0x86 => a << (b % 64),
        0x88 => a >> (b % 64),
        _ => a,
    }
}

#[inline(never)]
fn operations(codes: &[u8], rounds: u32) -> u64 {
    let mut a = 1u64;
    for round in 0..rounds {
        for code in codes {
            a = apply(*code, a, u64::from(round) | 1);
        }
    }
    a
}

fn main() {
    let mut memory = vec![0u8; 4 * 65_536];
    let codes = [
        0x7c, 0x85, 0x7e, 0x7d, 0x83, 0x84, 0x86, 0x7c, 0x88, 0x85, 0x7d, 0x84, 0x7e, 0x7c, 0x83, 0x7c,
    ];
    for name in std::env::args() {
        let value = match name.as_str() {
            "stores" => stores(&mut memory, 300_000_000),
            "loads" => loads(&memory, 300_000_000),
            "marks" => marks(&mut memory, 8_000),
            "operations" => operations(&codes, 20_000_000),
            _ => 0,
        };
        println!("{value}");
    }
}
