//! All paths of flow through one body: every place with every ground.

use super::wrong;
use crate::judge::{Judge, Lists};
use crate::opcode::Op;
use crate::reader::{Instruction, Module};
use crate::rules::Rules;
use crate::worklist::Typing;
use std::collections::BTreeSet;

/// A place on some path, and the ground there: the frame's slots under the operands, locals and
/// "slots buried under locals counted".
pub type Spot = (usize, usize);

/// What the paths of a body reach.
#[derive(Clone, Debug, Default, PartialEq, Eq)]
pub struct Paths {
    pub spots: BTreeSet<Spot>,
    /// The largest height, counted from the frame's first slot, that of calls left out.
    pub highest: usize,
    /// Each reached call: the callee, and the slots under its first argument.
    pub calls: BTreeSet<(u32, usize)>,
}

/// One body with its typing.
pub struct Walk<'m> {
    pub rules: Rules,
    pub module: Module<'m>,
    pub body: u32,
    pub typing: &'m Typing,
}

/// The paths of a body. `all`: the typings of all bodies.
pub fn paths(
    rules: Rules,
    module: Module<'_>,
    body: u32,
    typing: &Typing,
    all: &[(u32, Typing)],
) -> Paths {
    let walk = Walk {
        rules,
        module,
        body,
        typing,
    };
    let mut paths = Paths {
        spots: walk.spots(all),
        ..Paths::default()
    };
    wrong::spots_kept(rules, &mut paths.spots);
    for &spot in &paths.spots {
        let height = walk.height(spot);
        if !wrong::uncounted(&walk, spot) {
            paths.highest = paths.highest.max(height);
        }
        if let Some((callee, arguments)) = walk.called(spot.0) {
            let under = wrong::under(&walk, spot, arguments).unwrap_or(height - arguments);
            paths.calls.insert((callee, under));
        }
    }
    paths.calls.extend(wrong::dead_calls(&walk));
    paths
}

impl Walk<'_> {
    /// Every place with every ground that some path brings there, from the start on.
    fn spots(&self, all: &[(u32, Typing)]) -> BTreeSet<Spot> {
        let range = self.module.range(self.body);
        // "The start has the parameters and no operands."
        let start = (range.start, self.lists(range.start).locals.len());
        let mut spots = BTreeSet::from([start]);
        let mut work = vec![start];
        while let Some(spot) = work.pop() {
            for next in self.next(spot, all) {
                if !wrong::is_kept_out(self.rules, &spots, next) && spots.insert(next) {
                    work.push(next);
                }
            }
        }
        spots
    }

    /// "over all paths of flow ..., branch values ignored": every place that the instruction can go
    /// next, also past a call whose callee never returns.
    fn next(&self, (place, ground): Spot, all: &[(u32, Typing)]) -> Vec<Spot> {
        let Some(at) = self.instruction(place) else {
            return Vec::new();
        };
        let lists = self.lists(place);
        let judge = Judge {
            rules: self.rules,
            module: self.module,
            body: self.body,
        };
        let Ok(left) = judge.judge(at, lists) else {
            return Vec::new();
        };
        // "binds the top slot, which stays and buries those under it"
        let ground = match binds(at, lists) {
            true => {
                wrong::bound(self.rules, lists, ground).unwrap_or(ground + lists.operands.len())
            }
            false => ground,
        };
        let next = wrong::next(self, place, at, all).unwrap_or(left.next);
        next.into_iter().map(|place| (place, ground)).collect()
    }

    /// The height at a spot, from the frame's first slot.
    pub fn height(&self, (place, ground): Spot) -> usize {
        ground + self.lists(place).operands.len()
    }

    pub fn lists(&self, place: usize) -> &Lists {
        &self.typing[&place]
    }

    /// The instruction at a place; none at the entry's end.
    pub fn instruction(&self, place: usize) -> Option<Instruction> {
        let end = self.module.range(self.body).end;
        (place < end).then(|| self.module.instruction(self.rules, place))?
    }

    /// The callee of a `call` at this place, and how many arguments it takes.
    pub fn called(&self, place: usize) -> Option<(u32, usize)> {
        let at = self.instruction(place).filter(|at| at.op == Op::Call)?;
        let function = self.module.function(at.operand)?;
        Some((at.operand, function.parameters.len()))
    }
}

/// Does this `store` bind a new local?
fn binds(at: Instruction, lists: &Lists) -> bool {
    at.op == Op::Store && at.operand as usize == lists.locals.len()
}
