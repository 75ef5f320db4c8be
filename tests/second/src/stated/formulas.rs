//! Formula lines with their answers stated: the line, the output's length, and what document
//! 02's A4 says of number, length and the whole output afterwards.

use crate::compare::formula_difference;
use crate::gen::lines::WRITTEN_BEFORE;
use crate::hex;
use crate::memory::{FormulaMemory, Lent};
use crate::subject::Subject;

/// One formula line and what it must give.
pub struct StatedFormula {
    pub name: String,
    pub line: Vec<u8>,
    /// The output's length.
    pub out: usize,
    /// The module that is written with 0, or the refusal.
    pub answer: Result<Vec<u8>, u32>,
}

impl StatedFormula {
    /// What a subject gives instead, in words; nothing if it is as stated.
    pub fn difference(&self, subject: &mut dyn Subject) -> Option<String> {
        let before: Vec<u8> = (0..self.out).map(|n| 0x80 | (7 * n) as u8).collect();
        let mut memory = FormulaMemory {
            line: Lent::new(&self.line, 1),
            out: Lent::new(&before, 3),
            written: WRITTEN_BEFORE,
        };
        let mut wanted = memory.clone();
        let number = match &self.answer {
            Ok(module) => {
                wanted.out.slice_mut()[..module.len()].copy_from_slice(module);
                wanted.written = module.len() as u64;
                0
            }
            Err(number) => *number,
        };
        let answer = subject.formula(&mut memory);
        if answer == number && memory == wanted {
            return None;
        }
        Some(format!(
            "{} \"{}\": answers {number} and {answer}{}",
            self.name,
            self.line.escape_ascii(),
            formula_difference(&wanted, &memory)
        ))
    }
}

/// Every stated formula line.
pub fn all() -> Vec<StatedFormula> {
    let mut all = whole_files();
    all.extend(readings());
    all.extend(numbers());
    all.extend(spaces());
    all.extend(outside());
    all.extend(lengths());
    all.extend(depths());
    all.extend(operands());
    all.extend(order());
    all.extend(outputs());
    all
}

/// A code in short: `r`, `g`, `b` load a parameter, `#0` pushes constant 0, the signs `+ - * /`
/// are the four operations and `~` is `neg`; `ret` at the end.
fn code(short: &str) -> Vec<u8> {
    let words = short.split_whitespace().map(|word| match word {
        "r" => "03 00000000".to_string(),
        "g" => "03 01000000".to_string(),
        "b" => "03 02000000".to_string(),
        "+" => "0B".to_string(),
        "-" => "0C".to_string(),
        "*" => "0D".to_string(),
        "/" => "0F".to_string(),
        "~" => "13".to_string(),
        word => {
            let n: u32 = word
                .strip_prefix('#')
                .and_then(|n| n.parse().ok())
                .expect("a number");
            format!("01 {}", hex::encode(&n.to_le_bytes()))
        }
    });
    let mut bytes: Vec<u8> = words
        .flat_map(|word| hex::decode(&word).expect("hex digits"))
        .collect();
    bytes.push(0x28);
    bytes
}

/// The module: header; 12 bytes a constant; one record of 20; no label; the code.
fn module(constants: &[u32], short: &str) -> Vec<u8> {
    let code = code(short);
    let functions = 48 + 12 * constants.len();
    let (length, place) = (code.len(), functions + 20);
    let mut file = Vec::new();
    for word in [
        3,
        place + length,
        constants.len(),
        48,
        1,
        functions,
        0,
        place,
        length,
        place,
        0,
        0,
    ] {
        file.extend((word as u32).to_le_bytes());
    }
    for constant in constants {
        file.extend([3, 0, 0, 0]);
        file.extend(u64::from(*constant).to_le_bytes());
    }
    file.extend([0, 0, 0, 0]);
    file.extend((length as u32).to_le_bytes());
    file.extend([3, 3, 3, 3, 3, 0, 0, 0, 0, 0, 0, 0]);
    file.extend(code);
    file
}

/// 0, in an output a few bytes longer.
fn written(name: &str, line: &[u8], constants: &[u32], short: &str) -> StatedFormula {
    let module = module(constants, short);
    StatedFormula {
        name: name.to_string(),
        line: line.to_vec(),
        out: module.len() + 9,
        answer: Ok(module),
    }
}

fn refused(name: &str, line: &[u8], number: u32) -> StatedFormula {
    StatedFormula {
        name: name.to_string(),
        line: line.to_vec(),
        out: 3000,
        answer: Err(number),
    }
}

/// Whole files, byte by byte.
fn whole_files() -> Vec<StatedFormula> {
    let paper = "03000000 74000000 02000000 30000000 01000000 48000000 00000000 5C000000
        18000000 5C000000 00000000 00000000
        03000000 03000000 00000000 03000000 04000000 00000000
        00000000 18000000 03 03 0303030000000000 0000
        0300000000 0100000000 0D 0301000000 0B 0101000000 0F 28";
    let shortest = "03000000 4A000000 00000000 30000000 01000000 30000000 00000000 44000000
        06000000 44000000 00000000 00000000
        00000000 06000000 03 03 0303030000000000 0000
        0302000000 28";
    [("(r*3+g)/4", paper, 116), ("b", shortest, 74)]
        .into_iter()
        .flat_map(|(line, digits, length)| {
            let file = hex::decode(digits).expect("hex digits");
            assert_eq!(file.len(), length);
            [0, 1, 4096].map(|more| StatedFormula {
                name: format!("whole file and {more}"),
                line: line.as_bytes().to_vec(),
                out: length + more,
                answer: Ok(file.clone()),
            })
        })
        .collect()
}

/// "Products bind tighter than sums, equal ranks group from the left, unary minus binds tightest
/// and may repeat."
fn readings() -> Vec<StatedFormula> {
    [
        ("r", "r"),
        ("g", "g"),
        ("r+g", "r g +"),
        ("r-g", "r g -"),
        ("r*g", "r g *"),
        ("r/g", "r g /"),
        // equal ranks group from the left
        ("r-g-b", "r g - b -"),
        ("r-g+b", "r g - b +"),
        ("r+g-b", "r g + b -"),
        ("r/g/b", "r g / b /"),
        ("r/g*b", "r g / b *"),
        ("r*g/b", "r g * b /"),
        ("r-g-b-r", "r g - b - r -"),
        // products bind tighter
        ("r+g*b", "r g b * +"),
        ("r*g+b", "r g * b +"),
        ("r-g/b-r", "r g b / - r -"),
        ("r*g-b*r", "r g * b r * -"),
        ("r+g*b/r-b", "r g b * r / + b -"),
        // unary minus binds tightest and may repeat; it adds no depth
        ("-r", "r ~"),
        ("--r", "r ~ ~"),
        ("---r", "r ~ ~ ~"),
        ("-r*g", "r ~ g *"),
        ("-r+g", "r ~ g +"),
        ("-r-g", "r ~ g -"),
        ("-r/g", "r ~ g /"),
        ("r--g", "r g ~ -"),
        ("r- -g", "r g ~ -"),
        ("r---g", "r g ~ ~ -"),
        ("r+-g", "r g ~ +"),
        ("r*-g", "r g ~ *"),
        ("r/-g*b", "r g ~ / b *"),
        ("r*--g-b", "r g ~ ~ * b -"),
        ("-r*-g", "r ~ g ~ *"),
        // brackets
        ("(r)", "r"),
        ("((r))", "r"),
        ("r-(g-b)", "r g b - -"),
        ("(r-g)-b", "r g - b -"),
        ("r/(g/b)", "r g b / /"),
        ("(r+g)*b", "r g + b *"),
        ("r*(g+b)", "r g b + *"),
        ("-(r+g)", "r g + ~"),
        ("-(r)*g", "r ~ g *"),
        ("-(-r)", "r ~ ~"),
        ("(-r)", "r ~"),
        ("r-(-g)", "r g ~ -"),
        ("(r)*(g)", "r g *"),
        ("(r+(g-b))/(b-(g+r))", "r g b - + b g r + - /"),
    ]
    .into_iter()
    .map(|(line, short)| written("reading", line.as_bytes(), &[], short))
    .collect()
}

/// "one constant per number in line order"; "unsigned decimal ints up to 4294967295"; "Leading
/// zeros are allowed".
fn numbers() -> Vec<StatedFormula> {
    let mut zeros = vec![b'0'; 246];
    zeros.extend(b"4294967295");
    let mut over = vec![b'0'; 246];
    over.extend(b"4294967296");
    let mut all = vec![
        written("number", b"0", &[0], "#0"),
        written("number", b"7", &[7], "#0"),
        written("number", b"12", &[12], "#0"),
        written("largest", b"4294967295", &[0xFFFF_FFFF], "#0"),
        written("leading zeros", b"007", &[7], "#0"),
        written("leading zeros", b"00004294967295", &[0xFFFF_FFFF], "#0"),
        written("256 bytes of a number", &zeros, &[0xFFFF_FFFF], "#0"),
        written("zeros", &[b'0'; 256], &[0], "#0"),
        written("line order", b"1+2*3", &[1, 2, 3], "#0 #1 #2 * +"),
        written("line order", b"(9-8)/7", &[9, 8, 7], "#0 #1 - #2 /"),
        written("one for each", b"1+1", &[1, 1], "#0 #1 +"),
        written("one for each", b"5*r-05", &[5, 5], "#0 r * #1 -"),
        written("minus is no part", b"-5", &[5], "#0 ~"),
        written("minus first", b"-6/2", &[6, 2], "#0 ~ #1 /"),
        written("minus first", b"-r*3", &[3], "r ~ #0 *"),
        written("quotient by zero", b"1/0", &[1, 0], "#0 #1 /"),
        written("quotient by zero", b"r/(1-1)", &[1, 1], "r #0 #1 - /"),
        refused("256 bytes, too large", &over, 41),
    ];
    let large: [&[u8]; 9] = [
        b"4294967296",
        b"04294967296",
        b"4294967300",
        b"10000000000",
        b"42949672950",
        b"18446744073709551617",
        b"r+4294967296",
        b"-4294967296",
        b"(((4294967296)))",
    ];
    all.extend(large.map(|line| refused("too large", line, 41)));
    all
}

/// "spaces may stand anywhere but inside a number"
fn spaces() -> Vec<StatedFormula> {
    let mut all = vec![
        written("spaces", b" ( r * 3 + g ) / 4 ", &[3, 4], "r #0 * g + #1 /"),
        written("spaces", b"   r", &[], "r"),
        written("spaces", b"r   ", &[], "r"),
        written("spaces", b"- - r", &[], "r ~ ~"),
        written("spaces", b"1 +2", &[1, 2], "#0 #1 +"),
        written("spaces", b"1+ 2", &[1, 2], "#0 #1 +"),
        written("spaces", b"( r )", &[], "r"),
        written("no space in it", b"12", &[12], "#0"),
    ];
    let inside: [&[u8]; 5] = [b"1 2", b"0 7", b"1  2", b"r+1 2", b"42949 67295"];
    all.extend(inside.map(|line| refused("space in a number", line, 41)));
    all
}

/// 41: "not in the grammar".
fn outside() -> Vec<StatedFormula> {
    let lines: [&[u8]; 47] = [
        b"",
        b" ",
        b"    ",
        b"r g",
        b"2r",
        b"r2",
        b"rg",
        b"(r)(g)",
        b"r(g)",
        b"(r)g",
        b"2(r)",
        b"(r)2",
        b"+r",
        b"r++g",
        b"(+r)",
        b"-+r",
        b"*r",
        b"r**g",
        b"r//g",
        b"r*/g",
        b"r+",
        b"r-",
        b"r*",
        b"-",
        b"--",
        b"(",
        b")",
        b"()",
        b"( )",
        b"(r",
        b"r)",
        b"((r)",
        b"(r))",
        b")r(",
        b"(r+)",
        b"(-)",
        b"r+()",
        b"r\t+g",
        b"r+g\n",
        b"r\r",
        b"r\0",
        b"R",
        b"x",
        b"r+y",
        b"1.5",
        b"0x10",
        b"r\xC2\xA0+g",
    ];
    let mut all: Vec<StatedFormula> = lines
        .map(|line| refused("not in the grammar", line, 41))
        .into();
    for byte in 0..=255u8 {
        // each byte alone between two operands: only the four signs are right
        let line = [b'r', byte, b'g'];
        all.push(match byte {
            b'+' | b'-' | b'*' | b'/' => {
                let short = format!("r g {}", byte as char);
                written("byte between operands", &line, &[], &short)
            }
            _ => refused("byte between operands", &line, 41),
        });
    }
    for byte in 0..=255u8 {
        // each byte alone: names and digits are right
        all.push(match byte {
            b'r' | b'g' | b'b' => written("byte", &[byte], &[], &(byte as char).to_string()),
            b'0'..=b'9' => written("byte", &[byte], &[u32::from(byte - b'0')], "#0"),
            _ => refused("byte", &[byte], 41),
        });
    }
    all
}

fn padded(line: &[u8], length: usize) -> Vec<u8> {
    let mut line = line.to_vec();
    line.resize(length, b' ');
    line
}

/// 40: "Take a line of at most 256 bytes".
fn lengths() -> Vec<StatedFormula> {
    let minus = |count: usize| {
        let mut line = vec![b'-'; count];
        line.push(b'r');
        line
    };
    let sum = |operands: usize| {
        let mut line = b"r+".repeat(operands - 1);
        line.push(b'r');
        line
    };
    let many = |count: usize| format!("r {}", "~ ".repeat(count));
    let sums = |operands: usize| format!("r {}", "r + ".repeat(operands - 1));
    vec![
        written("256 bytes with spaces", &padded(b"r", 256), &[], "r"),
        refused("257 bytes with spaces", &padded(b"r", 257), 40),
        written("256 instructions", &minus(255), &[], &many(255)),
        refused("257 bytes of minus", &minus(256), 40),
        written("255 bytes of a sum", &sum(128), &[], &sums(128)),
        refused("257 bytes of a sum", &sum(129), 40),
        refused("257 spaces", &[b' '; 257], 40),
        refused("256 spaces", &[b' '; 256], 41),
        refused("257 bytes of another", &[b'!'; 257], 40),
        refused("256 bytes of another", &[b'!'; 256], 41),
        refused("257 zeros", &[b'0'; 257], 40),
        refused("1,000 bytes", &padded(b"r", 1000), 40),
        refused("70,000 bytes", &padded(b"r", 70_000), 40),
    ]
}

fn bracketed(before: &[u8], inner: &[u8], after: &[u8], depth: usize) -> Vec<u8> {
    let mut line = Vec::new();
    for _ in 0..depth {
        line.extend(before);
        line.push(b'(');
    }
    line.extend(inner);
    for _ in 0..depth {
        line.push(b')');
        line.extend(after);
    }
    line
}

/// 42: "up to 16 deep".
fn depths() -> Vec<StatedFormula> {
    let mut beside = bracketed(b"", b"r", b"", 16);
    beside.push(b'+');
    beside.extend(bracketed(b"", b"g", b"", 16));
    let minus = bracketed(b"-", b"r", b"", 16);
    let mut later = b"(r)*(g)+".to_vec();
    later.extend(bracketed(b"", b"r", b"", 17));
    vec![
        written("15 deep", &bracketed(b"", b"r", b"", 15), &[], "r"),
        written("16 deep", &bracketed(b"", b"r", b"", 16), &[], "r"),
        refused("17 deep", &bracketed(b"", b"r", b"", 17), 42),
        refused("18 deep", &bracketed(b"", b"r", b"", 18), 42),
        refused("127 deep", &bracketed(b"", b"r", b"", 127), 42),
        written("16 deep twice, side by side", &beside, &[], "r g +"),
        written(
            "16 deep with minuses",
            &minus,
            &[],
            &format!("r {}", "~ ".repeat(16)),
        ),
        refused("17 deep with minuses", &bracketed(b"-", b"r", b"", 17), 42),
        refused("17 deep later", &later, 42),
        refused(
            "17 open, 16 closed",
            &bracketed(b"", b"r", b"", 17)[..34],
            41,
        ),
        written(
            "16 deep, signs after",
            &bracketed(b"", b"r", b"+g", 16),
            &[],
            &format!("r {}", "g + ".repeat(16)),
        ),
        refused("17 deep, signs after", &bracketed(b"", b"r", b"+g", 17), 42),
    ]
}

/// 43: "a typing would need over 32 operands".
fn operands() -> Vec<StatedFormula> {
    // two operands wait at each bracket
    let two = |depth, inner: &[u8]| bracketed(b"r+r*", inner, b"", depth);
    let code = |depth: usize, inner: &str| {
        let signs = "* + ".repeat(depth);
        format!("{}{inner} {signs}", "r r ".repeat(depth))
    };
    let one = |line: &[u8]| bracketed(b"g-", line, b"", 1);
    let left = |line: &[u8]| bracketed(b"", line, b"-g", 1);
    vec![
        written("31 operands", &two(15, b"r"), &[], &code(15, "r")),
        written("32 operands", &two(15, b"r+g"), &[], &code(15, "r g +")),
        refused("33 operands, 15 deep", &two(15, b"r+g*b"), 43),
        refused("33 operands, 16 deep", &two(16, b"r"), 43),
        refused("34 operands, 16 deep", &two(16, b"r+g"), 43),
        written(
            "32 operands, 16 deep",
            &one(&two(15, b"r")),
            &[],
            &format!("g {} -", code(15, "r")),
        ),
        refused("33 operands, one in front", &one(&two(15, b"r+g")), 43),
        // the left one is done before the right one is begun: max(left, 1 + right)
        written(
            "32 operands on the left",
            &left(&two(15, b"r+g")),
            &[],
            &format!("{} g -", code(15, "r g +")),
        ),
        refused("33 operands on the left", &left(&two(15, b"r+g*b")), 43),
        written(
            "a sum of three inside",
            &two(15, b"r+g+b"),
            &[],
            &code(15, "r g + b +"),
        ),
        written(
            "minuses wait for nothing",
            &two(15, b"--r+-g"),
            &[],
            &code(15, "r ~ ~ g ~ +"),
        ),
    ]
}

/// "Refusals, in this order": where more than one holds, the first.
fn order() -> Vec<StatedFormula> {
    let both = bracketed(b"r+r*", b"r", b"", 17);
    let deep = bracketed(b"", b"r", b"", 17);
    let wide = bracketed(b"r+r*", b"r", b"", 16);
    let and = |line: &[u8], more: &[u8]| [line, more].concat();
    vec![
        refused("42 and 43", &both, 42),
        refused("41, 42 and 43", &and(&both, b"+"), 41),
        refused("40, 41, 42 and 43", &padded(&and(&both, b"+"), 257), 40),
        refused("40 and 42", &padded(&deep, 257), 40),
        refused("40 and 43", &padded(&wide, 257), 40),
        refused("42, padded", &padded(&deep, 256), 42),
        refused("43, padded", &padded(&wide, 256), 43),
        refused("41 and 42", &and(&deep, b")"), 41),
        refused("41 and 42, first byte", &and(b"+", &deep), 41),
        refused("41 and 43", &and(&wide, b"g"), 41),
        refused("42, and too large", &and(&deep, b"+4294967296"), 41),
        refused("42, and largest", &and(&deep, b"+4294967295"), 42),
        refused("43, and too large", &and(&wide, b"+4294967296"), 41),
        refused("43, and largest", &and(&wide, b"+4294967295"), 43),
    ]
}

/// 16: after the others, by the module's length.
fn outputs() -> Vec<StatedFormula> {
    let with = |mut stated: StatedFormula, out| {
        stated.out = out;
        stated
    };
    let short = |line: &[u8], out| {
        let mut stated = refused("output too short", line, 16);
        stated.out = out;
        stated
    };
    let deep = bracketed(b"", b"r", b"", 17);
    let wide = bracketed(b"r+r*", b"r", b"", 16);
    vec![
        short(b"(r*3+g)/4", 115),
        with(
            written("output full", b"(r*3+g)/4", &[3, 4], "r #0 * g + #1 /"),
            116,
        ),
        short(b"b", 73),
        with(written("output full", b"b", &[], "b"), 74),
        with(written("output longer", b"b", &[], "b"), 75),
        short(b"b", 48),
        short(b"b", 47),
        short(b"b", 1),
        short(b"b", 0),
        with(refused("40, no output", &[b' '; 257], 40), 0),
        with(refused("41, no output", b"r+", 41), 0),
        with(refused("41, large, no output", b"4294967296", 41), 0),
        with(refused("42, no output", &deep, 42), 0),
        with(refused("43, no output", &wide, 43), 0),
    ]
}
