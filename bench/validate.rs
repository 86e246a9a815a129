//! Checks the body that validate.rt.txt checks, by a plain checker of the same bytes as they stand.

const DEPTH: u32 = 10_000;
const UNITS: u32 = 245_000;
const TIMES: u32 = 20;

#[derive(Clone, Copy, PartialEq)]
enum Ty {
    I32,
    I64,
}

#[derive(Clone, Copy)]
enum Instr {
    Block(Option<Ty>),
    End,
    LocalGet(u32),
    I32Const(#[allow(dead_code)] u32),
    I32Add,
    Drop,
}

struct Frame {
    gives: Option<Ty>,
    height: usize,
}

struct Checker {
    operands: Vec<Ty>,
    frames: Vec<Frame>,
}

impl Checker {
    fn pop(&mut self) -> Option<Ty> {
        if self.operands.len() <= self.frames.last()?.height {
            return None;
        }
        self.operands.pop()
    }

    fn expect(&mut self, ty: Ty) -> Option<()> {
        (self.pop()? == ty).then_some(())
    }

    fn step(&mut self, locals: &[Ty], instr: Instr) -> Option<()> {
        match instr {
            Instr::Block(gives) => self.frames.push(Frame {
                gives,
                height: self.operands.len(),
            }),
            Instr::End => {
                let gives = self.frames.last()?.gives;
                if let Some(ty) = gives {
                    self.expect(ty)?;
                }
                if self.frames.pop()?.height != self.operands.len() {
                    return None;
                }
                self.operands.extend(gives);
            }
            Instr::LocalGet(place) => self.operands.push(*locals.get(place as usize)?),
            Instr::I32Const(_) => self.operands.push(Ty::I32),
            Instr::I32Add => {
                self.expect(Ty::I32)?;
                self.expect(Ty::I32)?;
                self.operands.push(Ty::I32);
            }
            Instr::Drop => {
                self.pop()?;
            }
        }
        Some(())
    }
}

fn check(locals: &[Ty], code: &[Instr]) -> Option<()> {
    let mut checker = Checker {
        operands: Vec::new(),
        frames: vec![Frame {
            gives: None,
            height: 0,
        }],
    };
    for instr in code {
        checker.step(locals, *instr)?;
    }
    Some(())
}

fn main() {
    let mut code = Vec::new();
    for _ in 0..DEPTH {
        code.push(Instr::Block(None));
    }
    for _ in 0..UNITS {
        code.extend([
            Instr::LocalGet(0),
            Instr::I32Const(300),
            Instr::I32Add,
            Instr::Drop,
        ]);
    }
    for _ in 0..DEPTH {
        code.push(Instr::End);
    }
    code.push(Instr::End);
    let locals = std::hint::black_box(vec![Ty::I32, Ty::I64]);
    for word in std::env::args() {
        let typed = if word == "check" {
            (0..TIMES)
                .filter(|_| check(&locals, std::hint::black_box(&code)).is_some())
                .count()
        } else {
            0
        };
        println!("{typed}");
    }
}
