//! Programs of edition 4 that mix `gcnew`, forgetting, `new` and `delete`, so that on a small heap
//! each `gcnew` frees and packs. `program` has a typing; `astray` is a program with instructions
//! that need not have one; `filled` repeats `gcnew`.

use super::heap::{constant, start, SMALL};
use super::loose::instrs;
use super::rng::Rng;
use super::structures::blocks;
use crate::opcode::Op;
use crate::program::{Constant, Mark, Program, Routine};
use crate::reader::ENTRY;
use crate::types::{target, DOUBLE, INT, LONG, MANAGED_TO, NUMBERS, POINTER_TO, STRUCTURE};

/// What a local points to.
#[derive(Clone, Copy, PartialEq, Eq)]
enum Held {
    /// A block of `new` of this type, and whether it is live as far as can be told.
    Block(u32, bool),
    /// A managed block of this type, or a field of one of this type, or nothing.
    Managed(u32),
    /// A number, which counts.
    Count,
}

/// The entry while it is written. Between its pieces there are no operands.
struct Writer {
    program: Program,
    code: Vec<(Op, u32)>,
    locals: Vec<Held>,
    /// The structure that the functions take and give.
    shape: u32,
    /// Blocks are held by locals alone, so that hardly more are live at one time than at another.
    calm: bool,
}

/// The numbers of constants that look like pointers to blocks given early.
const LIKE_POINTERS: [u32; 3] = [10, 11, 12];

/// The functions' numbers.
const FILL: u32 = 0;
const GIVE: u32 = 1;
const BUSY: u32 = 2;
const FIRST: u32 = 3;
const LITTER: u32 = 4;
/// Where a program that goes astray has one more.
const OTHER: u32 = 5;

pub fn program(rng: &mut Rng) -> Program {
    let pieces = rng.pick(&[2, 6, 12, 25, 50]);
    written(rng, pieces).program
}

fn written(rng: &mut Rng, pieces: usize) -> Writer {
    let mut program = start(rng);
    let like = |rng: &mut Rng| (rng.range(1, 14) as u64) << 16 | rng.pick(&[0, 0, 1, 2]);
    for ty in [LONG, LONG, DOUBLE] {
        let payload = like(rng);
        let ty = u32::from(ty);
        program.constants.push(Constant { ty, payload });
    }
    let shape = u32::from(STRUCTURE) + rng.below(program.structures.len()) as u32;
    let mut writer = Writer {
        program,
        code: Vec::new(),
        locals: Vec::new(),
        shape,
        calm: rng.percent(60),
    };
    writer.functions(rng);
    let locals = if writer.calm {
        rng.range(4, 14)
    } else {
        rng.range(1, 12)
    };
    for _ in 0..locals {
        writer.bind(rng);
    }
    for _ in 0..pieces {
        writer.piece(rng);
    }
    // a label can't be on the entry's end
    writer.code.extend([(Op::GcNull, 0), (Op::Pop, 0)]);
    writer.program.entry = instrs(&writer.code);
    writer
}

/// A number in each field of local 0.
fn fill(fields: &[u8]) -> Vec<(Op, u32)> {
    let mut code = Vec::new();
    for (field, &number) in fields.iter().enumerate() {
        code.extend([(Op::Load, 0), (Op::Flea, field as u32)]);
        code.extend([(Op::Push, constant(number)), (Op::Tstore, 0)]);
    }
    code
}

impl Writer {
    /// The field types of a structure, or nothing for a number.
    fn fields(&self, ty: u32) -> Option<&Vec<u8>> {
        let n = ty.checked_sub(u32::from(STRUCTURE))?;
        self.program.structures.get(n as usize)
    }

    fn some_type(&self, rng: &mut Rng) -> u32 {
        rng.pick(&blocks(self.program.structures.len()))
    }

    /// One fills a structure's fields, one gives a new one, one is busy while its caller's slots
    /// hold blocks and gives back what it took, one gives a pointer to the first field, one leaves
    /// blocks that are dead between others that are not.
    fn functions(&mut self, rng: &mut Rng) {
        let ty = MANAGED_TO | self.shape as u8;
        let fields = self.fields(self.shape).cloned().unwrap_or_default();
        let field = MANAGED_TO | fields.first().copied().unwrap_or(INT);
        let first = vec![(Op::Load, 0), (Op::Flea, 0)];
        for (parameters, returns, mut code) in [
            (vec![ty], 0, fill(&fields)),
            (vec![], ty, vec![(Op::GcNew, self.shape)]),
            (vec![ty], ty, self.busy(rng)),
            (vec![ty], field, first),
            (vec![], 0, self.dead_between(rng)),
        ] {
            code.push((Op::Ret, 0));
            self.program.functions.push(Routine {
                parameters,
                returns,
                code: instrs(&code),
                ..Routine::default()
            });
        }
    }

    fn busy(&self, rng: &mut Rng) -> Vec<(Op, u32)> {
        let mut code = vec![(Op::GcNew, self.some_type(rng)), (Op::Store, 1)];
        for _ in 0..rng.range(1, 3) {
            let op = rng.pick(&[Op::GcNew, Op::GcNew, Op::New]);
            code.push((op, self.some_type(rng)));
        }
        code.push((Op::Load, 0));
        code
    }

    fn dead_between(&self, rng: &mut Rng) -> Vec<(Op, u32)> {
        let mut code = Vec::new();
        for _ in 0..rng.range(1, 6) {
            code.push((Op::GcNew, self.some_type(rng)));
            code.extend([(Op::New, self.some_type(rng)), (Op::Pop, 0)]);
        }
        code
    }

    /// One more local, a pointer to a new block, now and then with blocks buried under it.
    fn bind(&mut self, rng: &mut Rng) {
        let buried = if self.calm {
            0
        } else {
            rng.pick(&[0, 0, 0, 1, 2, 4])
        };
        for _ in 0..buried {
            let op = rng.pick(&[Op::GcNew, Op::GcNew, Op::New]);
            let ty = self.some_type(rng);
            self.code.push((op, ty));
        }
        let managed = rng.percent(70);
        let ty = match self.some_type(rng) {
            _ if managed && rng.one_in(3) => self.shape,
            ty => ty,
        };
        let op = if managed { Op::GcNew } else { Op::New };
        let n = self.locals.len() as u32;
        self.code.extend([(op, ty), (Op::Store, n)]);
        self.locals.push(if managed {
            Held::Managed(ty)
        } else {
            Held::Block(ty, true)
        });
    }

    /// A local of those that this holds for.
    fn some(&self, rng: &mut Rng, wanted: impl Fn(Held) -> bool) -> Option<u32> {
        let fits: Vec<u32> = (0..self.locals.len() as u32)
            .filter(|&n| wanted(self.locals[n as usize]))
            .collect();
        (!fits.is_empty()).then(|| rng.pick(&fits))
    }

    /// A managed local and its type.
    fn managed(&self, rng: &mut Rng) -> Option<(u32, u32)> {
        let n = self.some(rng, |held| matches!(held, Held::Managed(_)))?;
        match self.locals[n as usize] {
            Held::Managed(ty) => Some((n, ty)),
            _ => None,
        }
    }

    fn piece(&mut self, rng: &mut Rng) {
        let kind = rng.below(if self.calm { 14 } else { 24 });
        let done = match kind {
            0 => self.forget(rng),
            1..=4 => self.follow(rng),
            5..=8 => self.scatter(rng),
            9..=11 => self.litter(rng),
            12 | 13 => self.delete_or_new(rng),
            14 => self.hold(rng),
            15 => self.compare(rng),
            16 | 17 => self.call(rng),
            18 | 19 => self.field(rng),
            20 => self.number(rng),
            21 => self.leak(rng),
            _ => self.repeat(rng),
        };
        if done.is_none() && !self.calm {
            self.hold(rng);
        }
    }

    /// A new block in place of the one that a local holds.
    fn forget(&mut self, rng: &mut Rng) -> Option<()> {
        let (n, ty) = self.managed(rng)?;
        self.code.extend([(Op::GcNew, ty), (Op::Store, n)]);
        Some(())
    }

    /// Code that is passed over where a local is null.
    fn unless_null(&mut self, rng: &mut Rng, n: u32, code: &[(Op, u32)]) {
        let label = self.program.labels.len() as u32;
        let guarded = label < 200 && !rng.one_in(12);
        if guarded {
            let compare = rng.pick(&[Op::Cmp, Op::Icmp]);
            self.code.extend([(Op::Load, n), (Op::GcNull, 0)]);
            self.code.extend([(compare, 0), (Op::Je, label)]);
        }
        self.code.extend(code);
        if guarded {
            self.program.labels.push(Mark {
                owner: ENTRY,
                index: self.code.len(),
            });
        }
    }

    /// Stores, loads, or changes a number in a block.
    fn follow(&mut self, rng: &mut Rng) -> Option<()> {
        let (n, ty) = self.managed(rng)?;
        let mut code = vec![(Op::Load, n)];
        let mut number = ty as u8;
        if let Some(fields) = self.fields(ty) {
            let field = rng.below(fields.len());
            number = fields[field];
            code.push((Op::Flea, field as u32));
        }
        match rng.below(6) {
            0..=2 => code.extend([(Op::Push, constant(number)), (Op::Tstore, 0)]),
            3 | 4 => code.extend([(Op::Tload, 0), (Op::Pop, 0)]),
            _ => code.push((rng.pick(&[Op::Inc, Op::Dec]), 0)),
        }
        self.unless_null(rng, n, &code);
        Some(())
    }

    /// Two locals with one block.
    fn share(&mut self, rng: &mut Rng) -> Option<()> {
        let (n, ty) = self.managed(rng)?;
        let other = self.some(rng, |held| held == Held::Managed(ty))?;
        self.code.extend([(Op::Load, n), (Op::Store, other)]);
        Some(())
    }

    /// Holes where blocks were, and then a block that no hole may be long enough for.
    fn scatter(&mut self, rng: &mut Rng) -> Option<()> {
        for _ in 0..rng.range(1, 4) {
            self.share(rng)?;
            if rng.one_in(4) {
                self.delete_or_new(rng);
            }
        }
        self.long(rng)
    }

    /// Dead blocks between others, and then such a block.
    fn litter(&mut self, rng: &mut Rng) -> Option<()> {
        self.code.push((Op::Call, LITTER));
        self.long(rng)
    }

    /// A block in the place of the longer one of two.
    fn long(&mut self, rng: &mut Rng) -> Option<()> {
        let (one, other) = (self.managed(rng)?, self.managed(rng)?);
        let length = |ty: u32| self.fields(ty).map_or(1, Vec::len);
        let (n, ty) = if length(one.1) < length(other.1) {
            other
        } else {
            one
        };
        self.code.extend([(Op::GcNew, ty), (Op::Store, n)]);
        Some(())
    }

    /// Some blocks that operands hold, one after the other forgotten, with more given between.
    fn hold(&mut self, rng: &mut Rng) -> Option<()> {
        let mut held = Vec::new();
        for _ in 0..rng.pick(&[2, 2, 3, 4, 10]) {
            if rng.percent(60) || held.is_empty() {
                let ty = self.some_type(rng);
                let op = rng.pick(&[Op::GcNew, Op::GcNew, Op::GcNew, Op::New]);
                self.code.push((op, ty));
                held.push(op);
            } else {
                self.drop_held(rng, held.pop());
            }
        }
        while let Some(op) = held.pop() {
            self.drop_held(rng, Some(op));
        }
        Some(())
    }

    /// A managed pointer is dropped, any other's block is mostly taken back.
    fn drop_held(&mut self, rng: &mut Rng, given: Option<Op>) {
        let delete = given == Some(Op::New) && rng.percent(80);
        self.code
            .push((if delete { Op::Delete } else { Op::Pop }, 0));
    }

    /// A block of `new` goes, or comes again.
    fn delete_or_new(&mut self, rng: &mut Rng) -> Option<()> {
        let n = self.some(rng, |held| matches!(held, Held::Block(..)))?;
        if let Held::Block(ty, live) = self.locals[n as usize] {
            if live {
                self.code.extend([(Op::Load, n), (Op::Delete, 0)]);
            } else {
                self.code.extend([(Op::New, ty), (Op::Store, n)]);
            }
            self.locals[n as usize] = Held::Block(ty, !live);
        }
        Some(())
    }

    /// Compares managed pointers of any types, gcnull among them, or others.
    fn compare(&mut self, rng: &mut Rng) -> Option<()> {
        let (n, _) = self.managed(rng)?;
        let ty = self.some_type(rng);
        let managed = [(Op::Load, n), (Op::GcNew, ty), (Op::GcNull, 0)];
        let others = [(Op::New, ty), (Op::Null, 0)];
        let from = rng.pick(&[&managed[..], &managed, &others]);
        let pair = [rng.pick(from), rng.pick(from)];
        self.code.extend(pair);
        let op = rng.pick(&[Op::Cmp, Op::Icmp]);
        self.code.extend([(op, 0), (Op::Pop, 0)]);
        Some(())
    }

    /// A call of one of the functions.
    fn call(&mut self, rng: &mut Rng) -> Option<()> {
        let shape = self.shape;
        let n = self.some(rng, |held| held == Held::Managed(shape))?;
        match rng.below(6) {
            0 => self.unless_null(rng, n, &[(Op::Load, n), (Op::Call, FILL)]),
            1 | 2 => self.code.extend([(Op::Call, GIVE), (Op::Store, n)]),
            3 => self.code.extend([(Op::Call, GIVE), (Op::Pop, 0)]),
            _ => {
                let kept = rng.pick(&[(Op::Store, n), (Op::Pop, 0)]);
                self.code.extend([(Op::Load, n), (Op::Call, BUSY), kept]);
            }
        }
        Some(())
    }

    /// A field's pointer in a local of its own: the structure may then be forgotten.
    fn field(&mut self, rng: &mut Rng) -> Option<()> {
        let numbers: Vec<u32> = NUMBERS.map(u32::from).to_vec();
        let to = self.some(
            rng,
            |held| matches!(held, Held::Managed(ty) if numbers.contains(&ty)),
        )?;
        let Held::Managed(number) = self.locals[to as usize] else {
            return None;
        };
        let (n, ty) = self.managed(rng)?;
        let fields = self.fields(ty)?;
        let field = (0..fields.len()).find(|&n| u32::from(fields[n]) == number)?;
        let mut code = vec![(Op::Load, n), (Op::Flea, field as u32)];
        if field == 0 && ty == self.shape && rng.one_in(2) {
            code = vec![(Op::Load, n), (Op::Call, FIRST)];
        }
        code.push((Op::Store, to));
        self.unless_null(rng, n, &code);
        if rng.percent(70) {
            self.code.extend([(Op::GcNew, ty), (Op::Store, n)]);
        }
        Some(())
    }

    /// A number that looks like a pointer, while blocks are freed.
    fn number(&mut self, rng: &mut Rng) -> Option<()> {
        let ty = self.some_type(rng);
        self.code.push((Op::Push, rng.pick(&LIKE_POINTERS)));
        self.code.extend([(Op::GcNew, ty), (Op::Pop, 0)]);
        self.code.push((Op::Pop, 0));
        Some(())
    }

    /// A block of `new` that stays, and no pointer to it.
    fn leak(&mut self, rng: &mut Rng) -> Option<()> {
        let ty = self.some_type(rng);
        self.code.extend([(Op::New, ty), (Op::Pop, 0)]);
        Some(())
    }

    /// `gcnew` some times over, counted down in a local of its own.
    fn repeat(&mut self, rng: &mut Rng) -> Option<()> {
        let (n, ty) = self.managed(rng)?;
        let (counter, label) = (self.locals.len() as u32, self.program.labels.len() as u32);
        if counter >= 15 || rng.percent(50) {
            return None;
        }
        self.code.extend([(Op::Push, SMALL), (Op::Store, counter)]);
        self.locals.push(Held::Count);
        self.program.labels.push(Mark {
            owner: ENTRY,
            index: self.code.len(),
        });
        let kept = rng.pick(&[(Op::Store, n), (Op::Pop, 0)]);
        self.code.extend([(Op::GcNew, ty), kept]);
        self.code.extend([(Op::Lea, counter), (Op::Dec, 0)]);
        self.code.extend([(Op::Load, counter), (Op::Jne, label)]);
        Some(())
    }
}

/// A program with something at its end that need not have a typing, or that raises.
pub fn astray(rng: &mut Rng) -> Program {
    let pieces = rng.pick(&[0, 0, 1, 4]);
    let mut writer = written(rng, pieces);
    let shape = MANAGED_TO | writer.shape as u8;
    // a function that gives back what is of the other kind
    let (returns, op) = rng.pick(&[(shape, Op::New), (POINTER_TO | target(shape), Op::GcNew)]);
    writer.program.functions.push(Routine {
        parameters: Vec::new(),
        returns,
        code: instrs(&[(op, writer.shape), (Op::Ret, 0)]),
        ..Routine::default()
    });
    let mut code = Vec::new();
    for _ in 0..rng.range(1, 3) {
        code.extend(writer.stray(rng));
    }
    writer.program.entry.extend(instrs(&code));
    writer.program
}

impl Writer {
    /// A few instructions, each of which shows an exception, an order of exceptions, or what a
    /// typing does not pass.
    fn stray(&self, rng: &mut Rng) -> Vec<(Op, u32)> {
        let ty = self.some_type(rng);
        let given = (Op::GcNew, ty);
        let null = (Op::GcNull, 0);
        let managed = rng.pick(&[given, given, (Op::GcNew, self.shape), null]);
        let other = rng.pick(&[(Op::New, ty), (Op::Null, 0), (Op::Lea, 0)]);
        let both = if rng.one_in(2) {
            [managed, other]
        } else {
            [other, managed]
        };
        let past = rng.pick(&[0, 7, 8, 255, 65_535, u32::MAX]);
        let push = (Op::Push, rng.below(10) as u32);
        let local = rng.below(self.locals.len()) as u32;
        let follow = rng.pick(&[Op::Tload, Op::Inc, Op::Dec, Op::Delete, Op::Tstore]);
        let bad = rng.pick(&[7, 8, 9, 26, 0x43, 0x4A, 0xC3, 256 + 3, past]);
        match rng.below(16) {
            0 => vec![managed, (Op::Delete, 0)],
            1 => vec![(Op::GcNew, self.shape), (Op::Flea, 0), (Op::Delete, 0)],
            2 | 3 => [&both[..], &[(rng.pick(&[Op::Cmp, Op::Icmp]), 0)]].concat(),
            4 => [&both[..], &[(Op::Swap, 0)]].concat(),
            5 | 6 => vec![rng.pick(&both), (Op::Store, local)],
            7 => vec![rng.pick(&both), (Op::Call, rng.pick(&[FILL, BUSY, FIRST]))],
            8 => vec![(Op::Call, OTHER)],
            9 => vec![managed, (follow, 0)],
            10 => vec![managed, push, (Op::Tstore, 0)],
            11 => vec![managed, (Op::Flea, past)],
            12 => vec![push, push, (Op::GcNew, bad)],
            13 => vec![managed, rng.pick(&[push, managed]), (rng.pick(&WITHOUT), 0)],
            // the local's slot through a pointer to it
            14 => vec![(Op::Lea, local), managed, (Op::Tstore, 0), given],
            _ => vec![(Op::Lea, local), (rng.pick(&[Op::Tload, Op::Inc]), 0)],
        }
    }
}

/// Instructions that take no pointer.
const WITHOUT: [Op; 8] = [
    Op::Add,
    Op::Imod,
    Op::Shl,
    Op::Neg,
    Op::Not,
    Op::Toi,
    Op::Tod,
    Op::Je,
];

/// `gcnew` over and over: the pointers stay on the stack, or are dropped, and blocks of `new` come
/// between, some of which are taken back; then there is no slot left, no cell, or no step.
pub fn filled(rng: &mut Rng) -> Program {
    let mut program = start(rng);
    let all = blocks(program.structures.len());
    let mut code = Vec::new();
    for _ in 0..rng.range(1, 4) {
        code.push((Op::GcNew, rng.pick(&all)));
        match rng.below(6) {
            0..=2 => code.push((Op::Pop, 0)),
            3 => code.extend([(Op::Pop, 0), (Op::New, rng.pick(&all)), (Op::Pop, 0)]),
            4 => {
                let (held, other) = (rng.pick(&all), rng.pick(&all));
                code.extend([(Op::New, other), (Op::GcNew, held), (Op::Pop, 0)]);
                code.extend([(Op::Delete, 0), (Op::Pop, 0)]);
            }
            _ => {}
        }
    }
    code.push((Op::Jmp, 0));
    program.labels.push(Mark {
        owner: ENTRY,
        index: 0,
    });
    program.entry = instrs(&code);
    program
}
