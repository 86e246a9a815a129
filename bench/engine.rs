//! The engine's design in plain Rust, as fast as the form goes and proved of nothing: the instructions
//! of a body stand as they were read, a map made once says where each branch goes, one flat match
//! executes them, each instruction is counted as fuel, and the places of values are bounded.
//!
//! It reads modules of the profile without imports and runs their entry in turns of 10,000 instructions,
//! as a process would be run. `engine FILE` prints the result and the instructions executed, `engine
//! FILE codes` how often each code was executed, too.
use std::hint::unreachable_unchecked;

const PAGE: usize = 65_536;
const MOST_PAGES: usize = 64;
const MOST_FRAMES: usize = 2_048;
const MOST_PLACES: usize = 32_768;
const MOST_FUEL: u64 = 1_000_000_000;
const TURN: u64 = 10_000;

/// What stands behind an instruction's code. Of an access to memory it is the offset.
#[derive(Clone, Copy)]
enum Imm {
    Bare,
    Block(bool),
    Index(u32),
    Table { first: u32, count: u32 },
    Mem(u32),
    I32(u32),
    I64(u64),
}

#[derive(Clone, Copy)]
struct Instr {
    code: u8,
    imm: Imm,
}

/// Where a branch goes: the place, the values and open blocks of its frame that stay, and whether a
/// result is carried there.
#[derive(Clone, Copy)]
struct Target {
    to: u32,
    height: u32,
    opens: u32,
    carries: bool,
}

/// A function with its map: `slots` gives for the place of a branch its target, or the first of its table.
struct Body {
    code: Vec<Instr>,
    slots: Vec<u32>,
    targets: Vec<Target>,
    params: u32,
    locals: u32,
    gives: bool,
    class: u32,
}

struct Module {
    bodies: Vec<Body>,
    classes: Vec<u32>,
    globals: Vec<u64>,
    table: Vec<Option<u32>>,
    memory: Vec<u8>,
    most_pages: usize,
    start: Option<u32>,
    entry: u32,
}

// Reading. A module that isn't of the kind ends the program with a word.

struct Reader<'a> {
    bytes: &'a [u8],
    at: usize,
}

impl<'a> Reader<'a> {
    fn byte(&mut self) -> u8 {
        self.at += 1;
        self.bytes[self.at - 1]
    }

    fn signed(&mut self) -> i64 {
        let (mut value, mut shift) = (0, 0);
        loop {
            let byte = self.byte();
            value |= i64::from(byte & 0x7f) << shift;
            shift += 7;
            if byte & 0x80 == 0 {
                return if shift < 64 && byte & 0x40 != 0 { value | (-1 << shift) } else { value };
            }
        }
    }

    fn u32(&mut self) -> u32 {
        let (mut value, mut shift) = (0, 0);
        loop {
            let byte = self.byte();
            value |= u64::from(byte & 0x7f) << shift;
            shift += 7;
            if byte & 0x80 == 0 {
                return u32::try_from(value).expect("a number past 32 bits");
            }
        }
    }

    fn take(&mut self, count: u32) -> &'a [u8] {
        self.at += count as usize;
        &self.bytes[self.at - count as usize..self.at]
    }

    fn list<T>(&mut self, mut item: impl FnMut(&mut Self) -> T) -> Vec<T> {
        (0..self.u32()).map(|_| item(self)).collect()
    }

    fn value_type(&mut self) -> u8 {
        let ty = self.byte();
        assert!(matches!(ty, 0x7e | 0x7f), "a type that isn't of integers");
        ty
    }

    fn limits(&mut self) -> (usize, usize) {
        let bounded = self.byte() == 1;
        let least = self.u32() as usize;
        (least, if bounded { self.u32() as usize } else { usize::MAX })
    }

    /// A constant expression.
    fn constant(&mut self) -> u64 {
        let value = match self.byte() {
            0x41 => u64::from(self.signed() as u32),
            0x42 => self.signed() as u64,
            code => panic!("a constant expression of {code:#x}"),
        };
        assert!(self.byte() == 0x0b, "a constant expression that is long");
        value
    }

    fn instr(&mut self, labels: &mut Vec<u32>) -> Instr {
        let code = self.byte();
        let imm = match code {
            0x02..=0x04 => match self.byte() {
                0x40 => Imm::Block(false),
                0x7e | 0x7f => Imm::Block(true),
                ty => panic!("a block type {ty:#x}"),
            },
            0x0c | 0x0d | 0x10 | 0x20..=0x24 => Imm::Index(self.u32()),
            0x0e => {
                let (first, count) = (labels.len() as u32, self.u32());
                labels.extend((0..=count).map(|_| self.u32()));
                Imm::Table { first, count }
            }
            0x11 => {
                let index = self.u32();
                assert!(self.byte() == 0, "a table other than 0");
                Imm::Index(index)
            }
            0x28 | 0x29 | 0x2c..=0x37 | 0x3a..=0x3e => {
                self.u32();
                Imm::Mem(self.u32())
            }
            0x3f | 0x40 => {
                assert!(self.byte() == 0, "a memory other than 0");
                Imm::Bare
            }
            0x41 => Imm::I32(self.signed() as u32),
            0x42 => Imm::I64(self.signed() as u64),
            0x00 | 0x01 | 0x05 | 0x0b | 0x0f | 0x1a | 0x1b => Imm::Bare,
            0x45..=0x5a | 0x67..=0x8a | 0xa7 | 0xac | 0xad => Imm::Bare,
            _ => panic!("the code {code:#x} is outside the profile"),
        };
        Instr { code, imm }
    }

    /// A body with its final end, and its labels of tables.
    fn body(&mut self) -> (u32, Vec<Instr>, Vec<u32>) {
        let size = self.u32() as usize;
        let stop = self.at + size;
        let mut locals = 0;
        for _ in 0..self.u32() {
            locals += self.u32();
            self.value_type();
        }
        let (mut code, mut labels) = (Vec::new(), Vec::new());
        while self.at < stop {
            code.push(self.instr(&mut labels));
        }
        (locals, code, labels)
    }
}

/// How many operands a plain instruction takes and gives.
fn effect(code: u8) -> (u32, u32) {
    match code {
        0x1a | 0x21 | 0x24 => (1, 0),
        0x1b => (3, 1),
        0x20 | 0x23 | 0x3f | 0x41 | 0x42 => (0, 1),
        0x22 | 0x28..=0x35 | 0x40 | 0x45 | 0x50 | 0x67..=0x69 | 0x79..=0x7b | 0xa7..=0xad => (1, 1),
        0x36..=0x3e => (2, 0),
        0x46..=0x4f | 0x51..=0x5a | 0x6a..=0x78 | 0x7c..=0x8a => (2, 1),
        _ => (0, 0),
    }
}

/// For each place that opens a block, and for each else, where the block's end is; and where an if has its else.
fn ends_of(code: &[Instr]) -> (Vec<u32>, Vec<Option<u32>>) {
    let (mut ends, mut others) = (vec![0; code.len()], vec![None; code.len()]);
    let mut open = Vec::new();
    for (pc, instr) in code.iter().enumerate() {
        match instr.code {
            0x02..=0x04 => open.push(pc),
            0x05 => others[*open.last().unwrap()] = Some(pc as u32),
            0x0b => {
                if let Some(at) = open.pop() {
                    ends[at] = pc as u32;
                    if let Some(other) = others[at] {
                        ends[other as usize] = pc as u32;
                    }
                }
            }
            _ => {}
        }
    }
    (ends, others)
}

/// The slots and targets of a body, in one walk along it: `signatures` are the functions', `types` the module's.
fn map_of(body: &Body, labels: &[u32], signatures: &[u32], types: &[(u32, bool)]) -> (Vec<u32>, Vec<Target>) {
    let (ends, others) = ends_of(&body.code);
    let (mut slots, mut targets) = (vec![0; body.code.len()], Vec::new());
    let last = body.code.len() as u32 - 1;
    let whole = Target { to: last, height: body.params + body.locals, opens: 0, carries: body.gives };
    // Each open block with its label, and how many values stand behind its end.
    let mut open = vec![(whole, 0)];
    let mut height = whole.height;
    for (pc, instr) in body.code.iter().enumerate() {
        slots[pc] = targets.len() as u32;
        let label = |depth: u32| open[open.len() - 1 - depth as usize].0;
        let opens = open.len() as u32 - 1;
        match (instr.code, instr.imm) {
            (code @ 0x02..=0x04, Imm::Block(gives)) => {
                if code == 0x04 {
                    height = height.wrapping_sub(1);
                    let to = others[pc].map_or(ends[pc], |other| other + 1);
                    targets.push(Target { to, height, opens, carries: false });
                }
                let (to, carries) = if code == 0x03 { (pc as u32, false) } else { (ends[pc] + 1, gives) };
                open.push((Target { to, height, opens, carries }, height.wrapping_add(u32::from(gives))));
            }
            (0x05, _) => {
                height = open[open.len() - 1].0.height;
                targets.push(Target { to: ends[pc] + 1, height, opens, carries: false });
            }
            (0x0b, _) => height = open.pop().unwrap().1,
            (0x0c, Imm::Index(depth)) => targets.push(label(depth)),
            (0x0d, Imm::Index(depth)) => {
                height = height.wrapping_sub(1);
                targets.push(label(depth));
            }
            (0x0e, Imm::Table { first, count }) => {
                targets.extend(labels[first as usize..=(first + count) as usize].iter().map(|depth| label(*depth)));
            }
            (0x0f, _) => targets.push(whole),
            (code @ (0x10 | 0x11), Imm::Index(index)) => {
                let ty = if code == 0x10 { signatures[index as usize] } else { index };
                let (params, gives) = types[ty as usize];
                height = height.wrapping_sub(params + u32::from(code == 0x11)).wrapping_add(u32::from(gives));
            }
            (code, _) => {
                let (pops, pushes) = effect(code);
                height = height.wrapping_sub(pops).wrapping_add(pushes);
            }
        }
    }
    (slots, targets)
}

fn read(bytes: &[u8]) -> Module {
    let mut reader = Reader { bytes, at: 8 };
    assert!(bytes.starts_with(b"\0asm\x01\0\0\0"), "no module");
    let (mut types, mut signatures, mut bodies) = (Vec::new(), Vec::new(), Vec::new());
    let (mut globals, mut table, mut pages) = (Vec::new(), Vec::new(), (0, 0));
    let (mut memory, mut start, mut entry) = (Vec::new(), None, None);
    while reader.at < bytes.len() {
        let id = reader.byte();
        let size = reader.u32();
        let mut part = Reader { bytes: reader.take(size), at: 0 };
        match id {
            0 => {}
            1 => {
                types = part.list(|part| {
                    assert!(part.byte() == 0x60, "no function type");
                    let (params, results) = (part.list(Reader::value_type), part.list(Reader::value_type));
                    assert!(results.len() < 2, "a function of several results");
                    (params, results)
                });
            }
            3 => signatures = part.list(Reader::u32),
            4 => {
                table =
                    part.list(|part| (part.byte(), part.limits()).1.0).into_iter().flat_map(|n| vec![None; n]).collect()
            }
            5 => {
                pages = part.list(Reader::limits).pop().unwrap_or((0, 0));
                assert!(pages.0 <= MOST_PAGES, "a memory of too many pages");
                memory = vec![0; pages.0 * PAGE];
            }
            6 => globals = part.list(|part| (part.value_type(), part.byte(), part.constant()).2),
            7 => {
                part.list(|part| {
                    let length = part.u32();
                    let name = part.take(length);
                    let (kind, index) = (part.byte(), part.u32());
                    if name == b"_start" && kind == 0 {
                        entry = Some(index);
                    }
                });
            }
            8 => start = Some(part.u32()),
            9 => {
                part.list(|part| {
                    part.u32();
                    let offset = part.constant() as usize;
                    let functions = part.list(Reader::u32);
                    for (place, function) in functions.iter().enumerate() {
                        table[offset + place] = Some(*function);
                    }
                });
            }
            10 => bodies = part.list(Reader::body),
            11 => {
                part.list(|part| {
                    part.u32();
                    let offset = part.constant() as usize;
                    let count = part.u32();
                    memory[offset..offset + count as usize].copy_from_slice(part.take(count));
                });
            }
            _ => panic!("a section {id}, which isn't taken here"),
        }
    }
    let shapes: Vec<(u32, bool)> =
        types.iter().map(|(params, results)| (params.len() as u32, !results.is_empty())).collect();
    // The class of a type is the least type that equals it.
    let classes: Vec<u32> = types.iter().map(|ty| types.iter().position(|other| other == ty).unwrap() as u32).collect();
    let bodies = bodies.into_iter().zip(&signatures).map(|((locals, code, labels), ty)| {
        let (params, gives) = shapes[*ty as usize];
        let class = classes[*ty as usize];
        let mut body = Body { code, slots: Vec::new(), targets: Vec::new(), params, locals, gives, class };
        (body.slots, body.targets) = map_of(&body, &labels, &signatures, &shapes);
        body
    });
    Module {
        bodies: bodies.collect(),
        classes,
        globals,
        table,
        memory,
        most_pages: pages.1.min(MOST_PAGES),
        start,
        entry: entry.expect("no entry"),
    }
}

// Running.

#[derive(Clone, Copy, Debug, PartialEq)]
enum Halt {
    Slice,
    Done(Option<u64>),
    Trap(&'static str),
    Spent(&'static str),
}

#[derive(Clone, Copy)]
struct Frame {
    back: u32,
    body: u32,
    base: u32,
    outer: u32,
}

/// A module's run: the values of all frames, the locals of each under its operands, and where the innermost stands.
/// `outer` are the open blocks of the frames below, `opens` those and its own.
struct Instance<'a> {
    bodies: &'a [Body],
    classes: &'a [u32],
    table: Vec<Option<u32>>,
    globals: Vec<u64>,
    memory: Vec<u8>,
    most_pages: usize,
    values: Vec<u64>,
    frames: Vec<Frame>,
    depth: usize,
    pc: usize,
    sp: usize,
    base: usize,
    body: usize,
    outer: usize,
    opens: usize,
    counts: [u64; 256],
}

impl Instance<'_> {
    /// Enters a function that takes nothing.
    fn enter(&mut self, function: u32) {
        let body = &self.bodies[function as usize];
        assert!(body.params == 0 && body.locals as usize <= MOST_PLACES, "an entry with parameters");
        self.values[..body.locals as usize].fill(0);
        (self.body, self.pc, self.base, self.depth) = (function as usize, 0, 0, 0);
        (self.sp, self.outer, self.opens) = (body.locals as usize, 0, 0);
    }

    fn grow(&mut self, by: u32) -> u32 {
        let now = self.memory.len() / PAGE;
        if by as usize > self.most_pages.saturating_sub(now) {
            return u32::MAX;
        }
        self.memory.resize((now + by as usize) * PAGE, 0);
        now as u32
    }

    /// Executes at most `budget` instructions, and tells how many it did. With COUNTED it counts them by their codes.
    fn step<const COUNTED: bool>(&mut self, budget: u64) -> (Halt, u64) {
        let mut left = budget;
        let halt = self.run::<COUNTED>(&mut left);
        (halt, budget - left)
    }

    #[inline(never)]
    fn run<const COUNTED: bool>(&mut self, fuel: &mut u64) -> Halt {
        let bodies = self.bodies;
        // Held here, and not fetched at each instruction, which is faster.
        let values = self.values.as_mut_ptr();
        let (mut memory, mut length) = (self.memory.as_mut_ptr(), self.memory.len());
        let mut left = *fuel;
        let (mut pc, mut sp, mut base, mut opens) = (self.pc, self.sp, self.base, self.opens);
        let (mut outer, mut depth, mut number) = (self.outer, self.depth, self.body);
        let mut body = &bodies[number];
        let mut code: &[Instr] = &body.code;
        // The form proves each index; here nothing is proved, and nothing tested.
        macro_rules! value {
            ($at:expr) => {
                *{
                    let at = $at;
                    unsafe { &mut *values.add(at) }
                }
            };
        }
        macro_rules! imm {
            ($instr:expr, $kind:ident) => {
                if let Imm::$kind(value) = $instr.imm { value } else { unreachable() }
            };
        }
        macro_rules! halt {
            ($halt:expr) => {{
                *fuel = left;
                (self.pc, self.sp, self.base, self.opens) = (pc, sp, base, opens);
                (self.outer, self.depth, self.body) = (outer, depth, number);
                return $halt;
            }};
        }
        macro_rules! push {
            ($value:expr) => {{
                let pushed: u64 = $value;
                if sp + opens >= MOST_PLACES {
                    halt!(Halt::Spent("values"));
                }
                value!(sp) = pushed;
                sp += 1;
                pc += 1;
            }};
        }
        macro_rules! unary {
            ($from:ty, $a:ident, $result:expr) => {{
                let $a = value!(sp - 1) as $from;
                value!(sp - 1) = $result as u64;
                pc += 1;
            }};
        }
        macro_rules! binary {
            ($from:ty, $a:ident, $b:ident, $result:expr) => {{
                let ($a, $b) = (value!(sp - 2) as $from, value!(sp - 1) as $from);
                sp -= 1;
                value!(sp - 1) = $result as u64;
                pc += 1;
            }};
        }
        macro_rules! quotient {
            ($from:ty, $as:ty, $overflow:expr, $how:ident) => {{
                let (a, b) = (value!(sp - 2) as $from as $as, value!(sp - 1) as $from as $as);
                if b == 0 {
                    halt!(Halt::Trap("divide"));
                }
                if $overflow && a == <$as>::MIN && b.wrapping_add(1) == 0 {
                    halt!(Halt::Trap("overflow"));
                }
                sp -= 1;
                value!(sp - 1) = a.$how(b) as $from as u64;
                pc += 1;
            }};
        }
        macro_rules! load {
            ($instr:expr, $bytes:ty, $to:ty) => {{
                let at = u64::from(value!(sp - 1) as u32) + u64::from(imm!($instr, Mem));
                if at + size_of::<$bytes>() as u64 > length as u64 {
                    halt!(Halt::Trap("bounds"));
                }
                let read = unsafe { memory.add(at as usize).cast::<$bytes>().read_unaligned() };
                value!(sp - 1) = read as $to as u64;
                pc += 1;
            }};
        }
        macro_rules! store {
            ($instr:expr, $bytes:ty) => {{
                let at = u64::from(value!(sp - 2) as u32) + u64::from(imm!($instr, Mem));
                if at + size_of::<$bytes>() as u64 > length as u64 {
                    halt!(Halt::Trap("bounds"));
                }
                let stored = value!(sp - 1) as $bytes;
                unsafe { memory.add(at as usize).cast::<$bytes>().write_unaligned(stored) };
                sp -= 2;
                pc += 1;
            }};
        }
        // The target at this place, or a later one of its table.
        macro_rules! target {
            () => {
                target!(0)
            };
            ($later:expr) => {{
                let later = $later;
                unsafe { body.targets.get_unchecked(*body.slots.get_unchecked(pc) as usize + later) }
            }};
        }
        macro_rules! branch {
            ($target:expr) => {{
                let target = $target;
                let to = base + target.height as usize;
                if target.carries {
                    value!(to) = value!(sp - 1);
                    sp = to + 1;
                } else {
                    sp = to;
                }
                opens = outer + target.opens as usize;
                pc = target.to as usize;
            }};
        }
        macro_rules! call {
            ($callee:expr, $under:expr) => {{
                let callee = $callee as usize;
                let next = unsafe { bodies.get_unchecked(callee) };
                if depth + 1 >= MOST_FRAMES {
                    halt!(Halt::Spent("frames"));
                }
                if sp - $under + next.locals as usize + opens > MOST_PLACES {
                    halt!(Halt::Spent("values"));
                }
                sp -= $under;
                *unsafe { self.frames.get_unchecked_mut(depth) } =
                    Frame { back: pc as u32 + 1, body: number as u32, base: base as u32, outer: outer as u32 };
                depth += 1;
                base = sp - next.params as usize;
                for local in sp..sp + next.locals as usize {
                    value!(local) = 0;
                }
                sp += next.locals as usize;
                (number, body, code, outer, pc) = (callee, next, &next.code, opens, 0);
            }};
        }
        loop {
            let instr = unsafe { code.get_unchecked(pc) };
            // An end and an else cost nothing: they are passed even where no fuel is left, and give
            // back what was taken.
            if left == 0 {
                rare();
                if !matches!(instr.code, 0x05 | 0x0b) {
                    halt!(Halt::Slice);
                }
            }
            left = left.wrapping_sub(1);
            if COUNTED {
                self.counts[instr.code as usize] += 1;
            }
            match instr.code {
                0x00 => halt!(Halt::Trap("unreachable")),
                0x01 => pc += 1,
                0x02 | 0x03 => {
                    if sp + opens >= MOST_PLACES {
                        halt!(Halt::Spent("values"));
                    }
                    opens += 1;
                    pc += 1;
                }
                0x04 => {
                    sp -= 1;
                    opens += 1;
                    pc = if value!(sp) as u32 == 0 { target!().to as usize } else { pc + 1 };
                }
                0x05 => {
                    left = left.wrapping_add(1);
                    opens -= 1;
                    pc = target!().to as usize;
                }
                0x0b => {
                    left = left.wrapping_add(1);
                    if pc + 1 < code.len() {
                        opens -= 1;
                        pc += 1;
                        continue;
                    }
                    let result = if body.gives { Some(value!(sp - 1)) } else { None };
                    if depth == 0 {
                        halt!(Halt::Done(result));
                    }
                    sp = base;
                    if let Some(result) = result {
                        value!(sp) = result;
                        sp += 1;
                    }
                    depth -= 1;
                    let frame = *unsafe { self.frames.get_unchecked(depth) };
                    (pc, number, base) = (frame.back as usize, frame.body as usize, frame.base as usize);
                    (opens, outer) = (outer, frame.outer as usize);
                    body = unsafe { bodies.get_unchecked(number) };
                    code = &body.code;
                }
                0x0c | 0x0f => branch!(target!()),
                0x0d => {
                    sp -= 1;
                    if value!(sp) as u32 == 0 {
                        pc += 1;
                    } else {
                        branch!(target!());
                    }
                }
                0x0e => {
                    let Imm::Table { count, .. } = instr.imm else { unreachable() };
                    sp -= 1;
                    branch!(target!(count.min(value!(sp) as u32) as usize));
                }
                0x10 => call!(imm!(instr, Index), 0),
                0x11 => {
                    let index = imm!(instr, Index) as usize;
                    let class = *unsafe { self.classes.get_unchecked(index) };
                    match self.table.get(value!(sp - 1) as u32 as usize) {
                        None => halt!(Halt::Trap("table")),
                        Some(None) => halt!(Halt::Trap("element")),
                        Some(Some(callee)) => {
                            let callee = *callee;
                            if unsafe { bodies.get_unchecked(callee as usize) }.class != class {
                                halt!(Halt::Trap("type"));
                            }
                            call!(callee, 1);
                        }
                    }
                }
                0x1a => {
                    sp -= 1;
                    pc += 1;
                }
                0x1b => {
                    sp -= 2;
                    if value!(sp + 1) as u32 == 0 {
                        value!(sp - 1) = value!(sp);
                    }
                    pc += 1;
                }
                0x20 => push!(value!(base + imm!(instr, Index) as usize)),
                0x21 => {
                    sp -= 1;
                    value!(base + imm!(instr, Index) as usize) = value!(sp);
                    pc += 1;
                }
                0x22 => {
                    value!(base + imm!(instr, Index) as usize) = value!(sp - 1);
                    pc += 1;
                }
                0x23 => {
                    let index = imm!(instr, Index) as usize;
                    push!(*unsafe { self.globals.get_unchecked(index) });
                }
                0x24 => {
                    sp -= 1;
                    let (index, value) = (imm!(instr, Index) as usize, value!(sp));
                    *unsafe { self.globals.get_unchecked_mut(index) } = value;
                    pc += 1;
                }
                0x28 => load!(instr, u32, u32),
                0x29 => load!(instr, u64, u64),
                0x2c => load!(instr, i8, u32),
                0x2d => load!(instr, u8, u32),
                0x2e => load!(instr, i16, u32),
                0x2f => load!(instr, u16, u32),
                0x30 => load!(instr, i8, u64),
                0x31 => load!(instr, u8, u64),
                0x32 => load!(instr, i16, u64),
                0x33 => load!(instr, u16, u64),
                0x34 => load!(instr, i32, u64),
                0x35 => load!(instr, u32, u64),
                0x36 | 0x3e => store!(instr, u32),
                0x37 => store!(instr, u64),
                0x3a | 0x3c => store!(instr, u8),
                0x3b | 0x3d => store!(instr, u16),
                0x3f => push!((length / PAGE) as u64),
                0x40 => {
                    let by = value!(sp - 1) as u32;
                    value!(sp - 1) = u64::from(self.grow(by));
                    (memory, length) = (self.memory.as_mut_ptr(), self.memory.len());
                    pc += 1;
                }
                0x41 => push!(u64::from(imm!(instr, I32))),
                0x42 => push!(imm!(instr, I64)),
                0x45 => unary!(u32, a, a == 0),
                0x46 => binary!(u32, a, b, a == b),
                0x47 => binary!(u32, a, b, a != b),
                0x48 => binary!(i32, a, b, a < b),
                0x49 => binary!(u32, a, b, a < b),
                0x4a => binary!(i32, a, b, a > b),
                0x4b => binary!(u32, a, b, a > b),
                0x4c => binary!(i32, a, b, a <= b),
                0x4d => binary!(u32, a, b, a <= b),
                0x4e => binary!(i32, a, b, a >= b),
                0x4f => binary!(u32, a, b, a >= b),
                0x50 => unary!(u64, a, a == 0),
                0x51 => binary!(u64, a, b, a == b),
                0x52 => binary!(u64, a, b, a != b),
                0x53 => binary!(i64, a, b, a < b),
                0x54 => binary!(u64, a, b, a < b),
                0x55 => binary!(i64, a, b, a > b),
                0x56 => binary!(u64, a, b, a > b),
                0x57 => binary!(i64, a, b, a <= b),
                0x58 => binary!(u64, a, b, a <= b),
                0x59 => binary!(i64, a, b, a >= b),
                0x5a => binary!(u64, a, b, a >= b),
                0x67 => unary!(u32, a, a.leading_zeros()),
                0x68 => unary!(u32, a, a.trailing_zeros()),
                0x69 => unary!(u32, a, a.count_ones()),
                0x6a => binary!(u32, a, b, a.wrapping_add(b)),
                0x6b => binary!(u32, a, b, a.wrapping_sub(b)),
                0x6c => binary!(u32, a, b, a.wrapping_mul(b)),
                0x6d => quotient!(u32, i32, true, wrapping_div),
                0x6e => quotient!(u32, u32, false, wrapping_div),
                0x6f => quotient!(u32, i32, false, wrapping_rem),
                0x70 => quotient!(u32, u32, false, wrapping_rem),
                0x71 => binary!(u32, a, b, a & b),
                0x72 => binary!(u32, a, b, a | b),
                0x73 => binary!(u32, a, b, a ^ b),
                0x74 => binary!(u32, a, b, a.wrapping_shl(b)),
                0x75 => binary!(u32, a, b, (a as i32).wrapping_shr(b) as u32),
                0x76 => binary!(u32, a, b, a.wrapping_shr(b)),
                0x77 => binary!(u32, a, b, a.rotate_left(b % 32)),
                0x78 => binary!(u32, a, b, a.rotate_right(b % 32)),
                0x79 => unary!(u64, a, a.leading_zeros()),
                0x7a => unary!(u64, a, a.trailing_zeros()),
                0x7b => unary!(u64, a, a.count_ones()),
                0x7c => binary!(u64, a, b, a.wrapping_add(b)),
                0x7d => binary!(u64, a, b, a.wrapping_sub(b)),
                0x7e => binary!(u64, a, b, a.wrapping_mul(b)),
                0x7f => quotient!(u64, i64, true, wrapping_div),
                0x80 => quotient!(u64, u64, false, wrapping_div),
                0x81 => quotient!(u64, i64, false, wrapping_rem),
                0x82 => quotient!(u64, u64, false, wrapping_rem),
                0x83 => binary!(u64, a, b, a & b),
                0x84 => binary!(u64, a, b, a | b),
                0x85 => binary!(u64, a, b, a ^ b),
                0x86 => binary!(u64, a, b, a.wrapping_shl(b as u32)),
                0x87 => binary!(u64, a, b, (a as i64).wrapping_shr(b as u32) as u64),
                0x88 => binary!(u64, a, b, a.wrapping_shr(b as u32)),
                0x89 => binary!(u64, a, b, a.rotate_left(b as u32 % 64)),
                0x8a => binary!(u64, a, b, a.rotate_right(b as u32 % 64)),
                0xa7 => unary!(u32, a, a),
                0xac => unary!(i32, a, i64::from(a)),
                0xad => unary!(u32, a, a),
                _ => unreachable(),
            }
        }
    }
}

/// What a proof rules out.
fn unreachable() -> ! {
    unsafe { unreachable_unchecked() }
}

/// What comes rarely, so that the way around it is the straight one.
#[cold]
#[inline(never)]
fn rare() {}

/// Runs the start function and the entry to the end, and tells how it ended and how many instructions it took.
fn life<const COUNTED: bool>(instance: &mut Instance, start: Option<u32>, entry: u32) -> (Halt, u64) {
    let mut executed = 0;
    let mut last = Halt::Slice;
    for function in start.into_iter().chain([entry]) {
        instance.enter(function);
        last = loop {
            let (halt, turn) = instance.step::<COUNTED>(TURN.min(MOST_FUEL - executed));
            executed += turn;
            match halt {
                Halt::Slice if executed == MOST_FUEL => break Halt::Spent("fuel"),
                Halt::Slice => {}
                halt => break halt,
            }
        };
        if !matches!(last, Halt::Done(_)) {
            break;
        }
    }
    (last, executed)
}

fn main() {
    let words: Vec<String> = std::env::args().skip(1).collect();
    let counted = words.get(1).is_some_and(|word| word == "codes");
    let module = read(&std::fs::read(words.first().expect("usage: engine FILE [codes]")).expect("the file"));
    let mut instance = Instance {
        bodies: &module.bodies,
        classes: &module.classes,
        table: module.table,
        globals: module.globals,
        memory: module.memory,
        most_pages: module.most_pages,
        values: vec![0; MOST_PLACES],
        frames: vec![Frame { back: 0, body: 0, base: 0, outer: 0 }; MOST_FRAMES],
        depth: 0,
        pc: 0,
        sp: 0,
        base: 0,
        body: 0,
        outer: 0,
        opens: 0,
        counts: [0; 256],
    };
    let (halt, executed) = if counted {
        life::<true>(&mut instance, module.start, module.entry)
    } else {
        life::<false>(&mut instance, module.start, module.entry)
    };
    match halt {
        Halt::Done(Some(result)) => println!("{result} {executed}"),
        halt => println!("{halt:?} {executed}"),
    }
    for (code, count) in instance.counts.iter().enumerate().filter(|(_, count)| **count > 0) {
        println!("{code:02x} {count}");
    }
}
