//! The library under test, through its C interface.

use second::memory::{
    BodyMemory, CheckMemory, ConvertMemory, FormulaMemory, Lent, MapMemory, NeedMemory,
    RecordingMemory, RunMemory, Start, WriteMemory,
};
use second::opcode::Edition;
use second::reader::ENTRY;
use second::subject::Subject;

extern "C" {
    pub fn limpetskein_check(
        module: *const u8,
        module_len: usize,
        room: *mut u8,
        room_len: usize,
        body: *mut u32,
    ) -> u32;

    pub fn limpetskein_run(
        module: *const u8,
        module_len: usize,
        function: u32,
        arg_types: *const u8,
        arg_types_len: usize,
        arg_payloads: *const u8,
        arg_payloads_len: usize,
        profile: u32,
        allowance: u64,
        payloads: *mut u8,
        payloads_len: usize,
        types: *mut u8,
        types_len: usize,
        heap: *mut u8,
        heap_len: usize,
        blocks: *mut u8,
        blocks_len: usize,
        steps: *mut u64,
        height: *mut u64,
    ) -> u32;

    pub fn limpetskein_write(
        edition: u32,
        constants: *const u8,
        constants_len: usize,
        functions: *const u8,
        functions_len: usize,
        labels: *const u8,
        labels_len: usize,
        structures: *const u8,
        structures_len: usize,
        code: *const u8,
        code_len: usize,
        entry_length: u32,
        out: *mut u8,
        out_len: usize,
        written: *mut u64,
    ) -> u32;

    pub fn limpetskein_formula(
        line: *const u8,
        line_len: usize,
        out: *mut u8,
        out_len: usize,
        written: *mut u64,
    ) -> u32;

    pub fn limpetskein_to_edition_4(
        module: *const u8,
        module_len: usize,
        out: *mut u8,
        out_len: usize,
        written: *mut u64,
    ) -> u32;

    pub fn limpetskein_to_edition_3(
        module: *const u8,
        module_len: usize,
        out: *mut u8,
        out_len: usize,
        written: *mut u64,
    ) -> u32;

    #[cfg(not(without_rows))]
    pub fn limpetskein_map(
        module: *const u8,
        module_len: usize,
        function: u32,
        profile: u32,
        arg_payloads: *const u8,
        arg_payloads_len: usize,
        out: *mut u8,
        out_len: usize,
        allowance: u64,
        payloads: *mut u8,
        payloads_len: usize,
        types: *mut u8,
        types_len: usize,
        heap: *mut u8,
        heap_len: usize,
        blocks: *mut u8,
        blocks_len: usize,
        rows: *mut u64,
    ) -> u32;

    #[cfg(not(without_records))]
    pub fn limpetskein_check_recording(
        module: *const u8,
        module_len: usize,
        room: *mut u8,
        room_len: usize,
        record: *mut u8,
        record_len: usize,
        body: *mut u32,
        written: *mut u64,
    ) -> u32;

    #[cfg(not(without_records))]
    pub fn limpetskein_check_body(
        module: *const u8,
        module_len: usize,
        body: u32,
        record: *mut u8,
        record_len: usize,
        first: *mut u32,
    ) -> u32;

    #[cfg(not(without_needs))]
    pub fn limpetskein_need(
        module: *const u8,
        module_len: usize,
        room: *mut u8,
        room_len: usize,
        report: *mut u8,
        report_len: usize,
        body: *mut u32,
        written: *mut u64,
    ) -> u32;
}

/// The conversion to this edition.
pub fn conversion(
    to: Edition,
) -> unsafe extern "C" fn(*const u8, usize, *mut u8, usize, *mut u64) -> u32 {
    match to {
        Edition::Four => limpetskein_to_edition_4,
        _ => limpetskein_to_edition_3,
    }
}

/// `null_if_empty`: slices of length 0 are lent as null pointers.
pub struct Library {
    pub null_if_empty: bool,
}

impl Library {
    fn pointer(&self, lent: &mut Lent) -> *mut u8 {
        if lent.is_empty() && self.null_if_empty {
            return std::ptr::null_mut();
        }
        lent.pointer()
    }
}

impl Subject for Library {
    fn check(&mut self, memory: &mut CheckMemory) -> u32 {
        let (module_len, room_len) = (memory.module.len(), memory.room.len());
        let module = self.pointer(&mut memory.module);
        let room = self.pointer(&mut memory.room);
        // SAFETY: pointers and lengths are those of separate live buffers.
        unsafe { limpetskein_check(module, module_len, room, room_len, &raw mut memory.body) }
    }

    fn run(&mut self, start: Start, memory: &mut RunMemory) -> u32 {
        let module = self.pointer(&mut memory.module);
        let arg_types = self.pointer(&mut memory.arg_types);
        let arg_payloads = self.pointer(&mut memory.arg_payloads);
        let payloads = self.pointer(&mut memory.payloads);
        let types = self.pointer(&mut memory.types);
        let heap = self.pointer(&mut memory.heap);
        let blocks = self.pointer(&mut memory.blocks);
        // SAFETY: pointers and lengths are those of separate live buffers.
        unsafe {
            limpetskein_run(
                module,
                memory.module.len(),
                start.function,
                arg_types,
                memory.arg_types.len(),
                arg_payloads,
                memory.arg_payloads.len(),
                start.profile,
                start.allowance,
                payloads,
                memory.payloads.len(),
                types,
                memory.types.len(),
                heap,
                memory.heap.len(),
                blocks,
                memory.blocks.len(),
                &raw mut memory.steps,
                &raw mut memory.height,
            )
        }
    }

    fn write(&mut self, memory: &mut WriteMemory) -> u32 {
        let constants = self.pointer(&mut memory.constants);
        let functions = self.pointer(&mut memory.functions);
        let labels = self.pointer(&mut memory.labels);
        let structures = self.pointer(&mut memory.structures);
        let code = self.pointer(&mut memory.code);
        let out = self.pointer(&mut memory.out);
        // SAFETY: pointers and lengths are those of separate live buffers.
        unsafe {
            limpetskein_write(
                memory.edition,
                constants,
                memory.constants.len(),
                functions,
                memory.functions.len(),
                labels,
                memory.labels.len(),
                structures,
                memory.structures.len(),
                code,
                memory.code.len(),
                memory.entry_length,
                out,
                memory.out.len(),
                &raw mut memory.written,
            )
        }
    }

    fn formula(&mut self, memory: &mut FormulaMemory) -> u32 {
        let (line_len, out_len) = (memory.line.len(), memory.out.len());
        let line = self.pointer(&mut memory.line);
        let out = self.pointer(&mut memory.out);
        // SAFETY: pointers and lengths are those of separate live buffers.
        unsafe { limpetskein_formula(line, line_len, out, out_len, &raw mut memory.written) }
    }

    fn convert(&mut self, to: Edition, memory: &mut ConvertMemory) -> u32 {
        let (module_len, out_len) = (memory.module.len(), memory.out.len());
        let module = self.pointer(&mut memory.module);
        let out = self.pointer(&mut memory.out);
        // SAFETY: pointers and lengths are those of separate live buffers.
        unsafe { conversion(to)(module, module_len, out, out_len, &raw mut memory.written) }
    }

    #[cfg(without_rows)]
    fn map(&mut self, _: Start, _: &mut MapMemory) -> u32 {
        unreachable!("rows are left out")
    }

    #[cfg(not(without_rows))]
    fn map(&mut self, start: Start, memory: &mut MapMemory) -> u32 {
        let module = self.pointer(&mut memory.module);
        let arg_payloads = self.pointer(&mut memory.arg_payloads);
        let out = self.pointer(&mut memory.out);
        let payloads = self.pointer(&mut memory.payloads);
        let types = self.pointer(&mut memory.types);
        let heap = self.pointer(&mut memory.heap);
        let blocks = self.pointer(&mut memory.blocks);
        // SAFETY: pointers and lengths are those of separate live buffers.
        unsafe {
            limpetskein_map(
                module,
                memory.module.len(),
                start.function,
                start.profile,
                arg_payloads,
                memory.arg_payloads.len(),
                out,
                memory.out.len(),
                start.allowance,
                payloads,
                memory.payloads.len(),
                types,
                memory.types.len(),
                heap,
                memory.heap.len(),
                blocks,
                memory.blocks.len(),
                &raw mut memory.rows,
            )
        }
    }

    #[cfg(without_records)]
    fn check_recording(&mut self, _: &mut RecordingMemory) -> u32 {
        unreachable!("records are left out")
    }

    #[cfg(not(without_records))]
    fn check_recording(&mut self, memory: &mut RecordingMemory) -> u32 {
        let module = self.pointer(&mut memory.module);
        let room = self.pointer(&mut memory.room);
        let record = self.pointer(&mut memory.record);
        // SAFETY: pointers and lengths are those of separate live buffers.
        unsafe {
            limpetskein_check_recording(
                module,
                memory.module.len(),
                room,
                memory.room.len(),
                record,
                memory.record.len(),
                &raw mut memory.body,
                &raw mut memory.written,
            )
        }
    }

    #[cfg(without_records)]
    fn check_body(&mut self, _: u32, _: &mut BodyMemory) -> u32 {
        unreachable!("records are left out")
    }

    #[cfg(not(without_records))]
    fn check_body(&mut self, body: u32, memory: &mut BodyMemory) -> u32 {
        let (module_len, record_len) = (memory.module.len(), memory.record.len());
        let module = self.pointer(&mut memory.module);
        let record = self.pointer(&mut memory.record);
        let first = &raw mut memory.first;
        // SAFETY: pointers and lengths are those of separate live buffers.
        unsafe { limpetskein_check_body(module, module_len, body, record, record_len, first) }
    }

    #[cfg(without_needs)]
    fn need(&mut self, _: &mut NeedMemory) -> u32 {
        unreachable!("needs are left out")
    }

    #[cfg(not(without_needs))]
    fn need(&mut self, memory: &mut NeedMemory) -> u32 {
        let module = self.pointer(&mut memory.module);
        let room = self.pointer(&mut memory.room);
        let report = self.pointer(&mut memory.report);
        // SAFETY: pointers and lengths are those of separate live buffers.
        unsafe {
            limpetskein_need(
                module,
                memory.module.len(),
                room,
                memory.room.len(),
                report,
                memory.report.len(),
                &raw mut memory.body,
                &raw mut memory.written,
            )
        }
    }
}

/// The answer of a run of a module's entry on a few slots.
pub fn run_entry(module: *const u8, len: usize) -> u32 {
    let (mut steps, mut height) = (0, 0);
    let (mut payloads, mut types) = ([0; 64], [0; 8]);
    let none = std::ptr::null();
    // SAFETY: pointers and lengths are those of separate live buffers.
    unsafe {
        limpetskein_run(
            module,
            len,
            ENTRY,
            none,
            0,
            none,
            0,
            0,
            9,
            payloads.as_mut_ptr(),
            payloads.len(),
            types.as_mut_ptr(),
            types.len(),
            std::ptr::null_mut(),
            0,
            std::ptr::null_mut(),
            0,
            &raw mut steps,
            &raw mut height,
        )
    }
}
