//! The least typing of a body, found with a worklist of places.

use crate::judge::{Judge, Lists};
use crate::opcode::Op;
use crate::reader::{Module, ENTRY};
use crate::rules::{Fault, Rules};
use std::collections::BTreeMap;

/// Lists by place.
pub type Typing = BTreeMap<usize, Lists>;

/// Why a body has no typing.
#[derive(Clone, Copy, Debug, PartialEq, Eq, PartialOrd, Ord)]
pub enum Reason {
    /// An instruction raises this number.
    Raises(Op, u32),
    /// Two ways lead to a place with different lists.
    Differ,
    /// More than 32 operands.
    TooLong,
    /// "A function's end is not given."
    FunctionEnd,
}

struct Search<'m> {
    judge: Judge<'m>,
    typing: Typing,
    work: Vec<usize>,
}

/// Finds the typing that every typing of the body contains. Each place in it is forced: by
/// "The start has the parameters and no operands", or by an instruction at a forced place. So
/// its places are those that "every typing of its body gives", and where it can't be
/// completed there is no typing.
pub fn typing(rules: Rules, module: Module<'_>, body: u32) -> Result<Typing, Reason> {
    let parameters = module.signature(rules, body).map(|f| f.parameters);
    let start = Lists {
        locals: parameters.unwrap_or_default(),
        operands: Vec::new(),
    };
    let mut search = Search {
        judge: Judge {
            rules,
            module,
            body,
        },
        typing: Typing::new(),
        work: Vec::new(),
    };
    let range = module.range(body);
    search.give(range.start, start)?;
    while let Some(place) = search.work.pop() {
        search.follow(place)?;
    }
    Ok(search.typing)
}

impl Search<'_> {
    /// "every place it can go next ... has exactly the lists it leaves"
    fn give(&mut self, place: usize, lists: Lists) -> Result<(), Reason> {
        let rules = self.judge.rules;
        let at_end = place == self.judge.module.range(self.judge.body).end;
        let entry = self.judge.body == ENTRY;
        if at_end && entry && rules.wrong(Fault::EntryEndNotJudged) {
            return Ok(());
        }
        // "A function's end is not given."
        if at_end && !entry && !rules.wrong(Fault::FunctionEndGiven) {
            return Err(Reason::FunctionEnd);
        }
        // "at most 16 and 32": locals can't pass 16, `store` sees to that
        if lists.operands.len() > 32 && !rules.wrong(Fault::OperandLimitForgotten) {
            return Err(Reason::TooLong);
        }
        match self.typing.get(&place) {
            Some(_) if rules.wrong(Fault::FirstTypingKept) => Ok(()),
            Some(known) if *known == lists => Ok(()),
            Some(_) => Err(Reason::Differ),
            None => {
                self.typing.insert(place, lists);
                self.work.push(place);
                Ok(())
            }
        }
    }

    fn follow(&mut self, place: usize) -> Result<(), Reason> {
        if place == self.judge.module.range(self.judge.body).end {
            return Ok(());
        }
        let Some(at) = self.judge.module.instruction(self.judge.rules, place) else {
            return Ok(());
        };
        let lists = self.typing[&place].clone();
        let left = self
            .judge
            .judge(at, &lists)
            .map_err(|number| Reason::Raises(at.op, number))?;
        for next in left.next {
            self.give(next, left.lists.clone())?;
        }
        Ok(())
    }
}
