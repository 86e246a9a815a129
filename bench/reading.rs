//! The module of `reading.rt.txt`, read by a plain reader that does the same work: it keeps each instruction with its
//! immediates, and the places of each block.
const FRONT: [u8; 20] = [
    0x00, 0x61, 0x73, 0x6D, 0x01, 0x00, 0x00, 0x00, 0x01, 0x05, 0x01, 0x60, 0x01, 0x7F, 0x00, 0x03,
    0x02, 0x01, 0x00, 0x0A,
];
const UNIT: [u8; 11] = [0x02, 0x40, 0x20, 0x00, 0x0D, 0x00, 0x0B, 0x41, 0xAC, 0x02, 0x1A];
const UNITS: u32 = 1_525_000;

#[allow(dead_code)]
#[derive(Clone, Copy)]
enum Imm {
    None,
    Block(Option<u8>),
    Index(u32),
    Table { first: u32, count: u32, last: u32 },
    Mem { align: u32, offset: u32 },
    I32(u32),
    I64(u64),
}

#[allow(dead_code)]
#[derive(Clone, Copy)]
struct Instr {
    code: u8,
    imm: Imm,
}

#[allow(dead_code)]
struct Match {
    at: u32,
    end: u32,
}

fn size(bytes: &mut Vec<u8>, n: u32) {
    bytes.extend_from_slice(&[
        (n & 0x7F) as u8 | 0x80,
        (n >> 7 & 0x7F) as u8 | 0x80,
        (n >> 14 & 0x7F) as u8 | 0x80,
        (n >> 21 & 0x7F) as u8,
    ]);
}

fn module() -> Vec<u8> {
    let mut bytes = FRONT.to_vec();
    size(&mut bytes, UNITS * 11 + 7);
    bytes.push(0x01);
    size(&mut bytes, UNITS * 11 + 2);
    bytes.push(0x00);
    for _ in 0..UNITS {
        bytes.extend_from_slice(&UNIT);
    }
    bytes.push(0x0B);
    bytes
}

struct Cursor<'a> {
    bytes: &'a [u8],
    at: usize,
}

impl Cursor<'_> {
    fn byte(&mut self) -> Option<u8> {
        let byte = *self.bytes.get(self.at)?;
        self.at += 1;
        Some(byte)
    }

    fn number(&mut self, signed: bool) -> Option<u64> {
        let (mut value, mut shift) = (0u64, 0);
        loop {
            let byte = self.byte()?;
            value |= u64::from(byte & 0x7F) << shift;
            shift += 7;
            if byte & 0x80 == 0 {
                if signed && byte & 0x40 != 0 && shift < 64 {
                    value |= u64::MAX << shift;
                }
                return Some(value);
            }
            if shift >= 70 {
                return None;
            }
        }
    }
}

fn body(cursor: &mut Cursor) -> Option<(Vec<Instr>, Vec<Match>)> {
    let (mut code, mut matches, mut open) = (Vec::new(), Vec::<Match>::new(), Vec::new());
    loop {
        let byte = cursor.byte()?;
        let imm = match byte {
            0x00 | 0x01 | 0x0F | 0x1A | 0x1B | 0x45..=0xBF => Imm::None,
            0x02..=0x04 => {
                open.push(matches.len());
                matches.push(Match { at: code.len() as u32, end: 0 });
                match cursor.byte()? {
                    0x40 => Imm::Block(None),
                    ty @ 0x7C..=0x7F => Imm::Block(Some(ty)),
                    _ => return None,
                }
            }
            0x0B => Imm::None,
            0x0C | 0x0D | 0x10 | 0x20..=0x24 => Imm::Index(cursor.number(false)? as u32),
            0x28..=0x3E => Imm::Mem { align: cursor.number(false)? as u32, offset: cursor.number(false)? as u32 },
            0x41 => Imm::I32(cursor.number(true)? as u32),
            0x42 => Imm::I64(cursor.number(true)?),
            _ => return None,
        };
        code.push(Instr { code: byte, imm });
        if byte == 0x0B {
            match open.pop() {
                Some(place) => matches[place].end = code.len() as u32 - 1,
                None => return Some((code, matches)),
            }
        }
    }
}

fn read(bytes: &[u8]) -> Option<usize> {
    let mut cursor = Cursor { bytes, at: FRONT.len() };
    cursor.number(false)?;
    let mut count = 0;
    for _ in 0..cursor.number(false)? {
        cursor.number(false)?;
        cursor.number(false)?;
        let (code, matches) = body(&mut cursor)?;
        std::hint::black_box(&matches);
        count += code.len();
    }
    (cursor.at == bytes.len()).then_some(count)
}

fn main() {
    let bytes = module();
    for name in std::env::args() {
        let value = match name.as_str() {
            "make" => bytes.len(),
            "read" => read(&bytes).unwrap_or(1),
            _ => 0,
        };
        println!("{value}");
    }
}
