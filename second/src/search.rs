//! The search, as SEARCH.md states it: boxes on a stack, examined from the top.

use crate::chooser::{Chooser, Half, Question};
use crate::patch::{self, Pair, Patch};
use crate::sizing::{numbers, LIMIT};
use crate::ticket::{Relation, Ticket, MOST_DEPTH};

#[derive(Clone, Copy, Debug, PartialEq, Eq)]
pub enum Word {
    Running,
    Fails,
    Holds,
    Open,
}

impl Word {
    pub fn text(self) -> &'static str {
        match self {
            Word::Running => "running",
            Word::Fails => "fails",
            Word::Holds => "holds",
            Word::Open => "open",
        }
    }
}

#[derive(Clone, Copy, Debug, PartialEq, Eq)]
pub struct Verdict {
    pub word: Word,
    pub examined: u64,
    pub waiting: u64,
    pub for_depth: u64,
    pub for_range: u64,
}

/// A coordinate: numerator over 2^h, not reduced.
pub type Coordinate = (i128, u32);

/// A waiting box: per axis the halvings h and the place q, and the patch.
struct Waiting {
    halvings: Vec<u32>,
    places: Vec<u64>,
    patch: Patch,
}

pub struct Search<C> {
    ticket: Ticket,
    relation: Relation, // after turning
    degrees: Vec<u32>,
    chooser: C,
    limit: i128,
    /// How many numbers the workspace holds. This program keeps its patches in
    /// vectors; the number only decides refusal 12. It may be set between calls.
    pub workspace: u64,
    depth: u32,
    waiting: Vec<Waiting>,
    examined: u64,
    for_depth: u64,
    for_range: u64,
    point: Option<Vec<Coordinate>>,
}

impl<C: Chooser> Search<C> {
    /// Takes a ticket that sizing accepted; refused with 12 only.
    pub fn take(ticket: Ticket, chooser: C, workspace: u64) -> Result<Search<C>, u32> {
        let mut search = Search {
            relation: patch::turned(ticket.relation).0,
            degrees: patch::degrees(&ticket),
            chooser,
            limit: LIMIT,
            workspace,
            depth: ticket.depth,
            waiting: Vec::new(),
            examined: 0,
            for_depth: 0,
            for_range: 0,
            point: None,
            ticket,
        };
        if !search.workspace_suffices(search.depth) {
            return Err(12);
        }
        search.start();
        Ok(search)
    }

    fn workspace_suffices(&self, depth: u32) -> bool {
        self.workspace >= (depth as u64 + 3) * numbers(&self.ticket) as u64
    }

    fn start(&mut self) {
        let axes = self.ticket.axes.len();
        self.waiting = vec![Waiting {
            halvings: vec![0; axes],
            places: vec![0; axes],
            patch: patch::first(&self.ticket),
        }];
        self.examined = 0;
        self.for_depth = 0;
        self.for_range = 0;
        self.point = None;
    }

    pub fn word(&self) -> Word {
        if !self.waiting.is_empty() {
            Word::Running
        } else if self.point.is_some() {
            Word::Fails
        } else if self.for_depth + self.for_range == 0 {
            Word::Holds
        } else {
            Word::Open
        }
    }

    pub fn depth(&self) -> u32 {
        self.depth
    }

    pub fn verdict(&self) -> Verdict {
        Verdict {
            word: self.word(),
            examined: self.examined,
            waiting: self.waiting.len() as u64,
            for_depth: self.for_depth,
            for_range: self.for_range,
        }
    }

    pub fn run(&mut self, n: u64) -> Result<u64, u32> {
        if !(1..=65_535).contains(&n) {
            return Err(13);
        }
        if self.word() != Word::Running {
            return Err(14);
        }
        if !self.workspace_suffices(self.depth) {
            return Err(12);
        }
        let mut done = 0;
        while done < n {
            let Some(next) = self.waiting.pop() else { break };
            self.examine(next);
            done += 1;
            assert!(self.waiting.len() as u32 <= self.depth + 1, "more than D + 1 boxes wait");
        }
        self.examined += done;
        Ok(done)
    }

    pub fn deepen(&mut self, depth: u64) -> Result<u32, u32> {
        if self.word() != Word::Open {
            return Err(15);
        }
        if depth <= self.depth as u64 || depth > MOST_DEPTH as u64 {
            return Err(16);
        }
        if !self.workspace_suffices(depth as u32) {
            return Err(12);
        }
        self.depth = depth as u32;
        self.start();
        Ok(self.depth)
    }

    pub fn point(&self) -> Result<&[Coordinate], u32> {
        match &self.point {
            Some(point) => Ok(point),
            None => Err(17),
        }
    }

    fn violates(&self, pair: Pair) -> bool {
        !self.relation.satisfied_by(pair.sign())
    }

    /// The point of a corner (a flag for each axis, set at the upper end), if
    /// the corner lies in the box and its number violates the relation.
    fn violating_corner(&self, here: &Waiting, upper: &[bool]) -> Option<Vec<Coordinate>> {
        let mut at = 0;
        let mut point = Vec::new();
        for (j, axis) in self.ticket.axes.iter().enumerate() {
            let (h, q) = (here.halvings[j], here.places[j]);
            // Only an end of the ticket's own box can be open.
            let open = if upper[j] { axis.upper_open && q == (1 << h) - 1 } else { axis.lower_open && q == 0 };
            if open {
                return None;
            }
            let e = (q + upper[j] as u64) as i128;
            let (a, b) = (axis.lower as i128, axis.upper as i128);
            point.push(((a << h) + (b - a) * e, h));
            at += if upper[j] { self.degrees[j] as usize * patch::stride(&self.degrees, j) } else { 0 };
        }
        self.violates(here.patch[at]).then_some(point)
    }

    fn examine(&mut self, here: Waiting) {
        // 1. All numbers satisfy the relation: settled.
        if !here.patch.iter().any(|&pair| self.violates(pair)) {
            return;
        }
        // 2. The violating corner of lowest index, the first axis the highest digit.
        let axes = self.ticket.axes.len();
        for corner in 0..1usize << axes {
            let upper: Vec<bool> = (0..axes).map(|j| corner >> (axes - 1 - j) & 1 == 1).collect();
            if let Some(point) = self.violating_corner(&here, &upper) {
                self.point = Some(point);
                self.waiting.clear();
                return;
            }
        }
        // 3. As deep as the search's depth: set aside.
        let depth: u32 = here.halvings.iter().sum();
        if depth >= self.depth {
            self.for_depth += 1;
            return;
        }
        // 4. The chooser, and room for its axis.
        let signs: Vec<i32> = here.patch.iter().map(|pair| pair.sign()).collect();
        let (axis, first) = self.chooser.choose(&Question {
            degrees: &self.degrees,
            halvings: &here.halvings,
            depth,
            signs: &signs,
        });
        let degree = self.degrees[axis];
        if !here.patch.iter().all(|pair| pair.may_grow(degree, self.limit)) {
            self.for_range += 1;
            return;
        }
        // 5. The halves; the one that the chooser named comes on top.
        let (lower_patch, upper_patch) = patch::halves(&here.patch, &self.degrees, axis);
        let half = |patch: Patch, upper: u64| {
            let mut halvings = here.halvings.clone();
            let mut places = here.places.clone();
            halvings[axis] += 1;
            places[axis] = 2 * places[axis] + upper;
            Waiting { halvings, places, patch }
        };
        let (lower, upper) = (half(lower_patch, 0), half(upper_patch, 1));
        match first {
            Half::Lower => self.waiting.extend([upper, lower]),
            Half::Upper => self.waiting.extend([lower, upper]),
        }
    }
}
