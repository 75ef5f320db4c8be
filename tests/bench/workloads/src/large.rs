//! Modules of the largest size, to be checked and opened.

use crate::small::in_edition;
use second::asm;

/// The longest code.
const CODE: usize = 16384;

pub fn modules() -> Vec<(&'static str, Vec<u8>)> {
    let texts = [
        ("full", full()),
        ("full-edition-4", in_edition(4, &full())),
        ("last-labels", one_byte_instructions(256)),
        ("no-labels", one_byte_instructions(0)),
        ("last-labels-wide", five_byte_instructions(256)),
        ("no-labels-wide", five_byte_instructions(0)),
        ("chain", backward_chain()),
        ("joins", joins()),
    ];
    texts.map(|(name, text)| (name, asm::file(&text))).to_vec()
}

/// Code, constants, functions and labels at their limits. What the functions leave of the code
/// is filled by the entry, and by function 0 to the byte.
fn full() -> String {
    let sections = 48 + 12 * 1024 + 20 * 128 + 8 * 256;
    let left = CODE - (asm::file(&full_with(0, 0)).len() - sections);
    full_with(left / 8, left % 8)
}

fn full_with(entry_blocks: usize, negs: usize) -> String {
    let mut text = String::new();
    for i in 0..1024 {
        text += &match i % 3 {
            0 => format!("int {}\n", 1000 + i),
            1 => format!("long {}\n", 1000 + i),
            _ => format!("double {i}.5\n"),
        };
    }
    text += "entry: push 0; pop\n";
    text += &"push 0; neg; not; pop\n".repeat(entry_blocks);
    for i in 0..128 {
        text += &function(i, if i == 0 { negs } else { 0 });
    }
    text
}

/// A loop and a way around it, arithmetic, a pointer, a call of another function, two labels.
fn function(i: usize, negs: usize) -> String {
    let (top, out, callee) = (2 * i, 2 * i + 1, i * 7 % 128);
    format!(
        "function int (int, int): push 0; store 2
         @{top}; load 0; load 1; cmp; jb {out}; load 0; push 0; mul; push 3; add; store 0
         load 0; push 6; cmp; ja {top}
         @{out}; lea 0; tload; load 1; add; store 2; load 2; push 0; div
         load 1; call {callee}; store 2; load 2; je {out}; load 2; {}ret\n",
        "neg; ".repeat(negs)
    )
}

/// 16,384 bytes of code, all but the first instruction of one byte, with labels on the last.
fn one_byte_instructions(labels: usize) -> String {
    let labels = labels_here(labels);
    format!(
        "int 1; entry: push 0; {}{labels}pop",
        "neg; ".repeat(CODE - 6)
    )
}

/// 16,384 bytes of code, 3,276 instructions of five bytes and four of one, with labels on the last.
fn five_byte_instructions(labels: usize) -> String {
    let labels = labels_here(labels);
    format!(
        "int 1; entry: push 0; push 0; {}neg; neg; neg; {labels}pop",
        "store 0; load 0; ".repeat(1637)
    )
}

fn labels_here(labels: usize) -> String {
    (0..labels).map(|n| format!("@{n}; ")).collect()
}

/// 256 blocks with a label each; the entry jumps to the last, each block to the one before it.
fn backward_chain() -> String {
    let mut text = String::from("int 1; entry: push 0; jmp 255\n");
    for i in 0..256 {
        let before = if i == 0 { 255 } else { i - 1 };
        text += &format!("@{i}; {}jmp {before}\n", "copy; pop; ".repeat(25));
    }
    text
}

/// As many branches as fit to 256 labels, each with 16 locals and 30 operands.
fn joins() -> String {
    let mut text: String = (0..16).map(|i| format!("int {i}\n")).collect();
    text += "entry: ";
    for i in 0..16 {
        text += &format!("push {i}; store {i}; ");
    }
    text += &"push 5; ".repeat(30);
    for i in 0..(CODE - 16 * 10 - 30 * 5) / 6 {
        if i % 10 == 0 && i < 2560 {
            text += &format!("@{}; ", i / 10);
        }
        text += &format!("copy; je {}\n", i * 37 % 256);
    }
    text
}
