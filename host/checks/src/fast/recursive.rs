//! The walk in the library's form: a function that calls itself for both branches, no stop first. Node and state are passed by value.

use super::lanes::Lanes;
use super::walk::{Form, Front, Search, Tables, INF};

impl Search {
    /// A node of this cost is walked on: it is within the limit and costs less than the best plan.
    #[inline(always)]
    pub fn opens(self, limit: u64, cost: u64) -> bool {
        self.count < limit && (!self.found || cost < self.cost)
    }

    /// One node more.
    #[inline(always)]
    pub fn counted(self) -> Search {
        Search { count: self.count + 1, ..self }
    }

    /// A node is reached: one more, or one beyond the limit.
    #[inline(always)]
    pub fn reached(self, limit: u64) -> Search {
        if self.count < limit {
            self.counted()
        } else {
            Search { over: true, ..self }
        }
    }
}

/// A node: openings decided, rows of the front, fees, decisions (the latest in the lowest bit).
#[derive(Clone, Copy)]
struct Node {
    at: usize,
    rows: usize,
    spent: u64,
    mask: u64,
}

/// By calls of itself.
pub struct Recursion;

impl Form for Recursion {
    fn search<V: Lanes, const Q: usize>(t: &Tables<V, Q>, front: &mut Front<V, Q>, limit: u64, sum: u32) -> Search {
        let begun = Search { count: 0, over: false, found: false, cost: 0, mask: 0 };
        if !begun.opens(limit, t.top(0) + u64::from(sum)) {
            return begun.reached(limit);
        }
        let root = Node { at: 0, rows: 1, spent: 0, mask: 0 };
        t.on(front, limit, root, false, sum, begun.counted())
    }
}

impl<V: Lanes, const Q: usize> Tables<V, Q> {
    /// The part sums of the no where it is walked on. It is missing where its term is. Else no part costs less than at the node above, so it
    /// is tested with that one's sum before any row is summed.
    #[inline(always)]
    fn below(&self, front: &mut Front<V, Q>, limit: u64, no: Node, sum: u32, state: Search) -> Option<u32> {
        let Node { rows, at, spent, .. } = no;
        let term = self.term(front, rows, at);
        if term >= u64::from(INF) || !state.opens(limit, spent + term + u64::from(sum)) {
            return None;
        }
        let below = self.bound(front, rows, at);
        state.opens(limit, spent + term + u64::from(below)).then_some(below)
    }

    /// Walks on from a node that is counted and not dropped. `stop`: its last decision is a yes, whose row is owed.
    fn on(&self, front: &mut Front<V, Q>, limit: u64, node: Node, stop: bool, sum: u32, state: Search) -> Search {
        if node.at == self.count {
            return Search { found: true, cost: node.spent + u64::from(sum), mask: node.mask, ..state };
        }
        let mut rows = node.rows;
        if stop {
            self.push(front, rows, node.at - 1);
            rows += 1;
        }
        let no = Node { at: node.at + 1, rows, mask: node.mask * 2, ..node };
        let state = match self.below(front, limit, no, sum, state) {
            Some(below) => self.on(front, limit, no, false, below, state.counted()),
            None => state.reached(limit),
        };
        let yes = Node { spent: node.spent + self.fees[node.at], mask: no.mask + 1, ..no };
        if !state.opens(limit, yes.spent + self.top(yes.at) + u64::from(sum)) {
            return state.reached(limit);
        }
        self.on(front, limit, yes, true, sum, state.counted())
    }
}
