//! Recipes for rows: a function of any parameters whose result depends on all of them, and which
//! on some values of one of them does not finish.

use super::rng::Rng;
use super::structures;
use crate::asm;
use crate::opcode::Edition;
use crate::program::Program;
use crate::types::{
    is_managed, target, DOUBLE, INT, LONG, MANAGED_TO, NUMBERS, POINTER_TO, STRUCTURE,
};

/// Which lent amount decides whether a row finishes.
#[derive(Clone, Copy, Debug, PartialEq, Eq)]
pub enum Limit {
    Nothing,
    Steps,
    Slots,
    Cells,
    /// Slots for the arguments alone, or fewer.
    Arguments,
}

/// A helper that takes one parameter, and does not finish on some of its values.
#[derive(Clone, Copy, Debug)]
pub struct Weakness {
    pub ty: u8,
    /// From this edition on.
    since: u32,
    code: &'static str,
    pub good: &'static [u64],
    pub bad: &'static [u64],
    pub limit: Limit,
}

/// Function 0 of the recipe's module; constants as in `CONSTANTS`.
const WEAKNESSES: [Weakness; 15] = [
    // 24
    weak(
        INT,
        "push 1; load 0; div; pop; ret",
        &[1, 2, 0xFFFF_FFFF],
        &[0],
    ),
    weak(
        LONG,
        "push 4; load 0; mod; pop; ret",
        &[1, 3, u64::MAX],
        &[0],
    ),
    // 35
    weak(
        DOUBLE,
        "load 0; load 0; cmp; pop; ret",
        NUMBERS_OF_DOUBLES,
        NANS,
    ),
    // 44, in edition 1 never
    weak(
        DOUBLE,
        "load 0; toi; pop; ret",
        NUMBERS_OF_DOUBLES,
        OUT_OF_RANGE,
    ),
    // 15
    weak(INT, COUNTS, SMALL, LARGE).by(Limit::Steps),
    // 20: frames, then slots
    weak(INT, DEEPENS, &[0, 1, 2, 5], &[127, 100]),
    weak(INT, PILES, SMALL, LARGE).by(Limit::Slots),
    // 33: a slot that is gone, a block that is gone
    weak(INT, STALE, &[0], &[1, 9, 1 << 31]).since(3),
    weak(INT, TWICE, &[0], &[1, 9, 1 << 31]).since(4),
    // 36: null, and where cells have run out
    weak(
        INT,
        "load 0; je 0; null; tload; pop; @0; ret",
        &[0],
        &[1, 2],
    )
    .since(4),
    weak(INT, FILLS, SMALL, LARGE).by(Limit::Cells).since(4),
    weak(INT, HOLDS, SMALL, LARGE).by(Limit::Cells).since(4),
    // 15, and never 36: what is forgotten is freed
    weak(INT, FORGETS, SMALL, LARGE).by(Limit::Steps).since(4),
    // 13: upper bits
    weak(INT, "ret", SMALL, UPPER_BITS).by(Limit::Arguments),
    weak(INT, "ret", &[7, 0xFFFF_FFFF], UPPER_BITS),
];

const CONSTANTS: &str = "int 0; int 1; int 15; int 127; long 1; double 1.5";

const COUNTS: &str = "load 0; push 2; and; store 1
    @0; load 1; je 1; load 1; push 1; sub; store 1; jmp 0; @1; ret";
const DEEPENS: &str =
    "load 0; push 3; and; store 1; load 1; je 0; load 1; push 1; sub; call 0; @0; ret";
const PILES: &str = "load 0; push 2; and; store 1
    @0; load 1; je 1; load 1; push 1; sub; store 1; push 1; jmp 0; @1; ret";
const STALE: &str = "load 0; je 0; push 0; store 1; lea 1; store 2; lea 2; call 1
    load 2; tload; pop; @0; ret";
const TWICE: &str = "load 0; je 0; new 3; copy; delete; delete; @0; ret";
const FILLS: &str = "load 0; push 2; and; store 1
    @0; load 1; je 1; load 1; push 1; sub; store 1; new 3; inc; jmp 0; @1; ret";

const HOLDS: &str = "load 0; push 2; and; store 1
    @0; load 1; je 1; load 1; push 1; sub; store 1; gcnew 3; copy; inc; jmp 0; @1; ret";
const FORGETS: &str = "load 0; push 2; and; store 1
    @0; load 1; je 1; load 1; push 1; sub; store 1; gcnew 10; pop; jmp 0; @1; ret";

/// Blocks that a row leaves, and one that it does not; no heap is no failure.
const KEPT: [&str; 5] = [
    "new 10; pop",
    "new 6; pop; new 10; pop",
    "new 4; delete",
    "gcnew 10; pop",
    "gcnew 6; gcnew 10; pop; pop; new 3; pop",
];

/// Pointers that a recipe returns.
const POINTERS: [u8; 3] = [
    POINTER_TO | STRUCTURE,
    MANAGED_TO | STRUCTURE,
    MANAGED_TO | INT,
];

const SMALL: &[u64] = &[0, 1, 2];
const LARGE: &[u64] = &[14, 15, 255];
const UPPER_BITS: &[u64] = &[1 << 32, 1 << 63 | 7, u64::MAX, 0x100_0000_0001];
/// 0, 1.5, -3.25, 2^31 - 1.
const NUMBERS_OF_DOUBLES: &[u64] = &[
    0,
    0x3FF8_0000_0000_0000,
    0xC00A_0000_0000_0000,
    0x41DF_FFFF_FFC0_0000,
];
const NANS: &[u64] = &[
    0x7FF8_0000_0000_0000,
    0xFFF8_0000_DEAD_BEEF,
    0x7FF0_0000_0000_0001,
];
/// A NaN, 2^32, an infinity, a large number.
const OUT_OF_RANGE: &[u64] = &[
    0x7FF8_0000_0000_0000,
    0x41F0_0000_0000_0000,
    0xFFF0_0000_0000_0000,
    0x7FEF_FFFF_FFFF_FFFF,
];

const fn weak(ty: u8, code: &'static str, good: &'static [u64], bad: &'static [u64]) -> Weakness {
    Weakness {
        ty,
        since: 1,
        code,
        good,
        bad,
        limit: Limit::Nothing,
    }
}

impl Weakness {
    const fn by(mut self, limit: Limit) -> Weakness {
        self.limit = limit;
        self
    }

    const fn since(mut self, edition: u32) -> Weakness {
        self.since = edition;
        self
    }
}

/// A module with a recipe.
pub struct Recipe {
    pub program: Program,
    pub weakness: Weakness,
    /// The parameter that goes to the helper, if the recipe has one of its type.
    pub weak: Option<usize>,
}

/// The recipe's function number: after the helper and what the helper calls.
pub const RECIPE: u32 = 2;

pub fn recipe(rng: &mut Rng, edition: Edition) -> Recipe {
    let known = WEAKNESSES
        .into_iter()
        .filter(|weakness| weakness.since <= edition.word());
    let weakness = rng.pick(&known.collect::<Vec<Weakness>>());
    let parameters = parameters(rng, weakness.ty);
    let own: Vec<usize> = (0..parameters.len())
        .filter(|&n| parameters[n] == weakness.ty)
        .collect();
    let weak = (!own.is_empty()).then(|| rng.pick(&own));
    let returns = if edition.has_heap() && rng.one_in(3) {
        rng.pick(&POINTERS)
    } else {
        rng.pick(&NUMBERS)
    };
    let mut code = Vec::new();
    code.extend(weak.map(|weak| format!("load {weak}; call 0")));
    if edition.has_heap() && rng.percent(60) {
        let kept = rng.pick(&KEPT);
        let at = rng.below(code.len() + 1);
        code.insert(at, kept.to_string());
    }
    if rng.one_in(8) {
        code.push(stray(rng, edition).to_string());
    }
    code.push(result(rng, &parameters, returns));
    let text = text(edition, weakness, &parameters, returns, &code.join("; "));
    let mut program = asm::program(&text);
    if edition.has_heap() {
        program.structures.push(structures::fields(rng));
    }
    Recipe {
        program,
        weakness,
        weak,
    }
}

/// An instruction that raises on every row, with what it takes.
fn stray(rng: &mut Rng, edition: Edition) -> &'static str {
    let mut all = vec![
        "push 99",
        "pop; pop; pop",
        "load 15",
        "push 0; store 15",
        "jmp 99",
        "call 99",
        "push 5; push 5; xor",
        "push 0; push 4; add",
    ];
    if edition.has_pointers() {
        all.extend(["push 0; tload", "push 0; inc"]);
    }
    if edition.has_heap() {
        all.extend(["new 5", "new 10; flea 8", "new 3; flea 0", "new 10; tload"]);
        all.extend(["gcnew 8", "gcnew 10; delete", "gcnew 10; null; cmp"]);
    }
    rng.pick(&all)
}

/// Any count, one of them mostly of the helper's type.
fn parameters(rng: &mut Rng, ty: u8) -> Vec<u8> {
    let count = rng.pick(&[0, 1, 1, 2, 3, 3, 4, 5, 6, 7, 8]);
    let mut types: Vec<u8> = (0..count).map(|_| rng.pick(&NUMBERS)).collect();
    if count > 0 && rng.percent(95) {
        types[rng.below(count)] = ty;
    }
    types
}

/// Code that gives the sum of all parameters that are converted without an exception.
fn result(rng: &mut Rng, parameters: &[u8], returns: u8) -> String {
    let convert = match returns {
        INT => "toi",
        LONG => "tol",
        DOUBLE => "tod",
        ty if is_managed(ty) => {
            let given = format!("gcnew {}", target(ty));
            let value = rng.pick(&[&given[..], &given, &given, "gcnull"]);
            return format!("{value}; ret");
        }
        _ if rng.one_in(5) => return "null; ret".to_string(),
        _ => return "new 10; ret".to_string(),
    };
    let fits = |n: &usize| returns == DOUBLE || parameters[*n] != DOUBLE;
    let loads: Vec<String> = (0..parameters.len())
        .filter(fits)
        .map(|n| format!("load {n}; {convert}"))
        .collect();
    let Some((first, others)) = loads.split_first() else {
        let constant = rng.below(4);
        return format!("push {constant}; {convert}; ret");
    };
    let others: Vec<String> = others.iter().map(|load| format!("; {load}; add")).collect();
    format!("{first}{}; ret", others.concat())
}

/// The helper, what it calls, the recipe, and functions that no row can have.
fn text(
    edition: Edition,
    weakness: Weakness,
    parameters: &[u8],
    returns: u8,
    code: &str,
) -> String {
    let list: Vec<&str> = parameters.iter().map(|&ty| word(ty)).collect();
    let (start, called, pointer) = match edition {
        Edition::One => ("edition 1;", "(): ret", "(int): load 0"),
        Edition::Three => ("", POINTER_STORED, "(*int): load 0; tload; ret"),
        Edition::Four if list.len() % 2 == 0 => {
            ("edition 4;", POINTER_STORED, "(gc*10): push 0; ret")
        }
        Edition::Four => ("edition 4;", POINTER_STORED, "(*10): push 0; ret"),
    };
    format!(
        "{start} {CONSTANTS}; entry: push 1
        function void ({}): {}
        function void {called}
        function {} ({}): {code}
        function int {pointer}",
        word(weakness.ty),
        weakness.code,
        word(returns),
        list.join(", ")
    )
}

/// Leaves a pointer to a slot of its own where its argument points.
const POINTER_STORED: &str = "(*int): load 0; lea 0; tstore; ret";

fn word(ty: u8) -> &'static str {
    match ty {
        INT => "int",
        LONG => "long",
        DOUBLE => "double",
        ty if ty == MANAGED_TO | INT => "gc*int",
        ty if is_managed(ty) => "gc*10",
        _ => "*10",
    }
}
