//! The machine's state and its moments.

use crate::heap::Heap;
use crate::opcode::Op;
use crate::reader::{Module, ENTRY};
use crate::rules::{Fault, Rules};
use crate::step::{step, Flow};

/// "A value is an int, a long, a double with its number, or a pointer with its slot.", or a managed
/// pointer. Kept as type number and raw payload, so "A double only moved keeps its bits".
#[derive(Clone, Copy, Debug, PartialEq, Eq)]
pub struct Slot {
    pub ty: u8,
    pub payload: u64,
}

/// "A frame has a first slot, locals (≤ 16, each a slot) and operands: the slots above its
/// highest local."
#[derive(Clone, Debug, PartialEq, Eq)]
pub struct Frame {
    pub body: u32,
    pub first: usize,
    /// The slot of each local.
    pub locals: Vec<usize>,
    /// Where the caller goes on.
    pub back: usize,
}

impl Frame {
    /// "arguments become locals in place"; "Parameter 0 is the deepest argument"
    pub fn new(rules: Rules, body: u32, first: usize, arguments: usize, back: usize) -> Frame {
        let mut locals: Vec<usize> = (first..first + arguments).collect();
        if rules.wrong(Fault::ArgumentSlotsReversed) {
            locals.reverse();
        }
        Frame {
            body,
            first,
            locals,
            back,
        }
    }

    /// The lowest slot above the highest local.
    pub fn operands(&self) -> usize {
        self.locals
            .iter()
            .max()
            .map_or(self.first, |&slot| slot + 1)
    }
}

#[derive(Clone, Debug)]
pub struct Machine<'m> {
    pub rules: Rules,
    pub module: Module<'m>,
    pub capacity: usize,
    /// The whole stack; its length is the height.
    pub stack: Vec<Slot>,
    pub frames: Vec<Frame>,
    pub heap: Heap,
    pub place: usize,
    pub steps: u64,
}

/// Looks on at a run, for coverage and for claims about whole runs.
pub trait Watch {
    /// Right before an instruction.
    fn before(&mut self, _machine: &Machine<'_>, _op: Op) {}
    /// Right after it, with the exception that it raised.
    fn after(&mut self, _machine: &Machine<'_>, _op: Op, _raised: Option<u32>) {}
}

/// Looks at nothing.
pub struct Unwatched;
impl Watch for Unwatched {}

impl<'m> Machine<'m> {
    /// "A run starts empty, or with its arguments".
    pub fn new(
        rules: Rules,
        module: Module<'m>,
        function: u32,
        arguments: Vec<Slot>,
        capacity: usize,
        heap: Heap,
    ) -> Machine<'m> {
        let frame = Frame::new(rules, function, 0, arguments.len(), 0);
        Machine {
            rules,
            module,
            capacity,
            stack: arguments,
            frames: vec![frame],
            heap,
            place: module.range(function).start,
            steps: 0,
        }
    }

    pub fn frame(&self) -> &Frame {
        self.frames.last().expect("the first frame lives")
    }

    pub fn frame_mut(&mut self) -> &mut Frame {
        self.frames.last_mut().expect("the first frame lives")
    }

    /// Runs to the outcome.
    pub fn run(&mut self, allowance: u64, watch: &mut dyn Watch) -> u32 {
        loop {
            if let Some(outcome) = self.moment(allowance, watch) {
                return outcome;
            }
        }
    }

    /// "At each moment: at the end of the entry, 0; at the end of a function, 29; else if
    /// steps equal the allowance, 15; else one instruction."
    fn moment(&mut self, allowance: u64, watch: &mut dyn Watch) -> Option<u32> {
        let body = self.frame().body;
        if self.rules.wrong(Fault::AllowanceBeforeEnd) && self.steps == allowance {
            return Some(15);
        }
        if self.place == self.module.range(body).end {
            return Some(if body == ENTRY { 0 } else { 29 });
        }
        if self.steps == allowance {
            return Some(15);
        }
        let Some(at) = self.module.instruction(self.rules, self.place) else {
            // only a wrong variant leaves its body
            return Some(29);
        };
        watch.before(self, at.op);
        let flow = step(self, at);
        watch.after(self, at.op, flow.err());
        match flow {
            Ok(Flow::Finished) if self.rules.wrong(Fault::LastRetUncounted) => Some(0),
            Ok(flow) => {
                self.steps += 1;
                (flow == Flow::Finished).then_some(0)
            }
            // "An instruction that raises counts no step and leaves the state as before it."
            Err(number) => {
                let counts = self.rules.wrong(Fault::ExceptionCountsStep)
                    || number == 44 && self.rules.wrong(Fault::RangeCountsStep);
                self.steps += u64::from(counts);
                Some(number)
            }
        }
    }
}
