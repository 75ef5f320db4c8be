//! Type numbers.
//!
//! "types int (3), long (4), double (6), pointer (7)", and "type 8" for managed pointers.
//! Signatures and typings tell pointers apart: "83, 84, 86 hex for pointer to one"; in edition 4
//! "Type bytes 8A to 99 (hex) mean pointer to a structure", "In a typing `null` has its own type
//! (byte 80)", and "type bytes C0 for `gcnull` ..., C3, C4, C6 and CA to D9 (hex) for managed
//! pointers".

pub const INT: u8 = 3;
pub const LONG: u8 = 4;
pub const DOUBLE: u8 = 6;
/// Every pointer at run time that is not managed.
pub const POINTER: u8 = 7;
/// Every managed pointer at run time.
pub const MANAGED: u8 = 8;
/// "structure records, numbered from 10"
pub const STRUCTURE: u8 = 10;
/// "structure count, at most 16"
pub const MOST_STRUCTURES: u8 = 16;
/// Set in a signature's or typing's type byte for a pointer to the type below it.
pub const POINTER_TO: u8 = 0x80;
/// The same for a managed pointer.
pub const MANAGED_TO: u8 = 0xC0;
/// "In a typing `null` has its own type (byte 80)".
pub const NULL: u8 = POINTER_TO;
/// "type bytes C0 for `gcnull`"
pub const GCNULL: u8 = MANAGED_TO;

/// The three number types.
pub const NUMBERS: [u8; 3] = [INT, LONG, DOUBLE];

/// "Types here are six: int, long, double, pointer to each."
pub const SIX: [u8; 6] = [
    INT,
    LONG,
    DOUBLE,
    POINTER_TO | INT,
    POINTER_TO | LONG,
    POINTER_TO | DOUBLE,
];

/// Is this int, long or double?
pub fn is_number(ty: u8) -> bool {
    NUMBERS.contains(&ty)
}

/// Is this a run-time type number of a pointer, managed or not?
pub fn is_address(ty: u8) -> bool {
    ty == POINTER || ty == MANAGED
}

/// Is this a signature's or typing's type byte of a pointer, managed or not?
pub fn is_pointer(ty: u8) -> bool {
    ty & POINTER_TO != 0
}

/// Is this one of a managed pointer?
pub fn is_managed(ty: u8) -> bool {
    kind(ty) == MANAGED_TO
}

/// 80 or C0 of a pointer's type byte.
pub fn kind(ty: u8) -> u8 {
    ty & MANAGED_TO
}

/// What a pointer's type byte says of what it points to, 0 for null.
pub fn target(ty: u8) -> u8 {
    ty & !MANAGED_TO
}

/// The number type that a pointer type points to, if it is one.
pub fn pointee(ty: u8) -> Option<u8> {
    (is_pointer(ty) && is_number(target(ty))).then_some(target(ty))
}

/// The type number of the structure that a pointer type points to, "8A to 99 (hex)", "CA to D9".
pub fn structure(ty: u8) -> Option<u8> {
    let numbers = STRUCTURE..STRUCTURE + MOST_STRUCTURES;
    (is_pointer(ty) && numbers.contains(&target(ty))).then_some(target(ty))
}

/// Is this the type byte of a null pointer, managed or not?
pub fn is_null(ty: u8) -> bool {
    is_pointer(ty) && target(ty) == 0
}

/// The run-time type number of a typing's type: "a pointer only as a pointer".
pub fn run_time(ty: u8) -> u8 {
    match kind(ty) {
        MANAGED_TO => MANAGED,
        POINTER_TO => POINTER,
        _ => ty,
    }
}
