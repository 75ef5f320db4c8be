//! An independent second program for Limpetskein: reader, writer, check, records of checks, needs, run,
//! rows of runs, formula line and conversions, written from the sentences of the papers (document 01, the exact rules;
//! 003 where it says so; document 02, what was asked for later). Each rule stands beside the sentence that it comes from. The
//! main program is compared with this one on generated modules and calls.
//!
//! * The rules: `reader`, `writer`, `check` (with `worklist` and `judge`), `recording` (a module's
//!   record, and the check of one body with it), `need` (the stack that a module needs), `run` (with `profile`, `machine`, `step`,
//!   `pointers`, `heap`, `integer`, `double`, `convert`), `map` (a run on each row of arguments), `formula`, `conversion` between editions, `show` for the small program's
//!   output, `desk` for the desk's commands.
//! * `opcode`: the editions and their opcode numbers; all else is shared.
//! * `rules`: the deliberately wrong variants that test the tests.
//! * The tools: `program` and `asm` write modules, `gen` makes cases, `memory`, `subject` and
//!   `compare` run two programs side by side, `coverage` (with `edges`, `managed_edges`,
//!   `profile_edges`, `row_edges`, `record_edges` and `need_edges`) counts what the cases reach,
//!   `stated` has checks, runs, writes, formula lines, conversions, rows, records and needs with their
//!   answers written out.

#![forbid(unsafe_code)]

pub mod args;
pub mod asm;
pub mod check;
pub mod claims;
pub mod compare;
pub mod conversion;
pub mod convert;
pub mod coverage;
pub mod desk;
pub mod double;
pub mod edges;
pub mod formula;
pub mod gen;
pub mod heap;
pub mod hex;
pub mod integer;
pub mod judge;
pub mod machine;
pub mod managed_edges;
pub mod map;
pub mod memory;
pub mod need;
pub mod need_edges;
pub mod opcode;
pub mod pointers;
pub mod possible;
pub mod profile;
pub mod profile_edges;
pub mod program;
pub mod reader;
pub mod record_edges;
pub mod recording;
pub mod row_edges;
pub mod rules;
pub mod run;
pub mod samples;
pub mod show;
pub mod stated;
pub mod step;
pub mod subject;
pub mod types;
pub mod words;
pub mod worklist;
pub mod writer;
