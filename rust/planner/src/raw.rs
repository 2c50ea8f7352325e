//! The library's types and calls as C sees them, in the order of include/planner.h; what each promises for every input is in
//! crates/ffi/specs. The safe functions of this crate call these.

/// The most vertices.
pub const VERTICES: usize = 20;
/// The most edges: every pair of 20 vertices.
pub const EDGES: usize = 190;
/// The most nodes that wait in a search.
pub const NODES: usize = VERTICES + 2;
/// Words of a row of bits, one bit for each edge; a node has two rows.
pub const ROW: usize = 3;
/// The places of a shelf, with the names 1 to 8, and of a dispatcher.
pub const PLACES: usize = 8;
/// The most times of an edge that its recent cost looks at.
pub const WINDOW: usize = 32;
/// The most pairs of a comparison.
pub const PAIRS: usize = 16;
/// The greatest student number.
pub const STUDENT: u64 = 65_535;
/// The greatest spread of delays.
pub const SPREAD: u64 = 1_000;
/// The greatest denominator.
pub const DENOMINATOR: u64 = 1_000;

/// A call is accepted. No refusal has this number or one of those below.
pub const ACCEPTED: u32 = 0;
/// `planner_tree`, `planner_preview`: no tree; `planner_rule`: no 1-tree is within the ceiling.
pub const NONE: u32 = 1000;
/// `planner_run`, `planner_tell`.
pub const GOING_ON: u32 = 1001;
/// `planner_run`.
pub const FINISHED: u32 = 1002;
/// `planner_tell`: finished, and no tour is within the ceiling.
pub const NO_TOUR: u32 = 1003;
/// `planner_tell`: finished, and the best cost is told.
pub const BEST: u32 = 1004;
/// `planner_turn`: no unfinished search is held.
pub const IDLE: u32 = 1005;

/// What a call answers. A field without a value is 0.
#[repr(C)]
#[derive(Clone, Copy, PartialEq, Eq, Debug)]
pub struct Reply {
    pub number: u32,
    pub place: u64,
    pub value: i64,
    pub nodes: u64,
}

/// Vertices 1 to n and edges 1 to m; edge k stands at place k - 1 and joins a and b. Marks: 0 free, 1 required, 2 excluded. It may hold
/// anything: a call refuses by 15 what breaks the rules. What stands past m counts for nothing.
#[repr(C)]
#[derive(Clone, Copy, PartialEq, Eq, Debug)]
pub struct Graph {
    pub cost: [i32; EDGES],
    pub a: [u8; EDGES],
    pub b: [u8; EDGES],
    pub mark: [u8; EDGES],
    pub n: u8,
    pub m: u8,
}

/// What an opening takes beside the graph and the multipliers. These and the step count in parts of a cost's unit, so many as the denominator
/// says; the ceiling counts in the unit itself.
#[repr(C)]
#[derive(Clone, Copy, PartialEq, Eq, Debug)]
pub struct Settings {
    pub ceiling: i64,
    pub sweeps: u32,
    pub step: u32,
    pub denominator: u64,
    /// 0 no, 1 yes, and any other number is yes: each edge that a pass keeps is tried again under multipliers lifted for it alone. As a rule a
    /// search opens fewer nodes then, and each takes longer; the verdict and the cost are the same.
    pub lifting: u64,
}

/// What a simulation answers. A field without a value is 0.
#[repr(C)]
#[derive(Clone, Copy, PartialEq, Eq, Debug)]
pub struct Sailed {
    pub number: u32,
    pub place: u64,
    pub total: i64,
    pub state: u64,
}

/// What every search of a comparison has alike; `lifting` as in [`Settings`].
#[repr(C)]
#[derive(Clone, Copy, PartialEq, Eq, Debug)]
pub struct Terms {
    pub ceiling: i64,
    pub budget: u64,
    pub denominator: u64,
    pub lifting: u64,
}

/// The record that the calls on a search work on (docs/RECORD.md). With contents that fail its check every call is refused 24. A node's
/// multipliers are those of the vertices afloat alone, in their order.
#[repr(C)]
#[derive(Clone, PartialEq, Eq, Debug)]
pub struct Record {
    pub settings: Settings,
    pub upper: i64,
    pub count: u64,
    pub stack: [u64; NODES * 2 * ROW],
    pub depth: u64,
    pub graph: Graph,
    pub multipliers: [i32; VERTICES],
    pub carried: [i32; NODES * VERTICES],
    pub best: [u8; EDGES],
    pub ashore: [u8; VERTICES],
    pub open: u8,
    pub has_best: u8,
}

/// The shelf of searches that save and back work on (docs/RECORD.md). Where a place fails its check both are refused 24.
#[repr(C)]
#[derive(Clone, PartialEq, Eq, Debug)]
pub struct Places {
    pub places: [Record; PLACES],
}

/// Eight searches that take turns (docs/RECORD.md): the place last served, 0 where none was, and the record of each place. With contents
/// that fail its check every call is refused 24.
#[repr(C)]
#[derive(Clone, PartialEq, Eq, Debug)]
pub struct Turns {
    pub last: usize,
    pub places: [Record; PLACES],
}

/// Holds a type to the header: its size, and where each field stands.
macro_rules! layout {
    ($kind:ty, $size:expr, $($field:ident at $offset:expr),*) => {
        const _: () = assert!(std::mem::size_of::<$kind>() == $size);
        $(const _: () = assert!(std::mem::offset_of!($kind, $field) == $offset);)*
    };
}

layout!(Reply, 32, number at 0, place at 8, value at 16, nodes at 24);
layout!(Graph, 1_332, cost at 0, a at 760, b at 950, mark at 1_140, n at 1_330, m at 1_331);
layout!(Settings, 32, ceiling at 0, sweeps at 8, step at 12, denominator at 16, lifting at 24);
layout!(Sailed, 32, number at 0, place at 8, total at 16, state at 24);
layout!(Terms, 32, ceiling at 0, budget at 8, denominator at 16, lifting at 24);
layout!(
    Record, 4_496,
    settings at 0, upper at 32, count at 40, stack at 48, depth at 1_104, graph at 1_112, multipliers at 2_444, carried at 2_524, best at 4_284,
    ashore at 4_474, open at 4_494, has_best at 4_495
);

layout!(Places, PLACES * std::mem::size_of::<Record>(), places at 0);
layout!(Turns, 8 + PLACES * std::mem::size_of::<Record>(), last at 0, places at 8);

// A pointer must lead to as much memory as the call is told, also where the length is 0, and no two that are lent may overlap.
extern "C" {
    pub fn planner_check(g: Graph) -> Reply;
    pub fn planner_read(g: *mut Graph, bytes: *const u8, length: usize) -> Reply;
    pub fn planner_write(g: Graph, out: *mut u8, length: usize) -> Reply;
    pub fn planner_tree(
        g: Graph,
        multipliers: *const i32,
        multipliers_length: usize,
        ashore: *const u8,
        ashore_length: usize,
        denominator: u64,
        out: *mut u8,
        length: usize,
    ) -> Reply;
    pub fn planner_preview(
        g: Graph,
        multipliers: *const i32,
        multipliers_length: usize,
        ashore: *const u8,
        ashore_length: usize,
        denominator: u64,
        edge: usize,
        mark: u32,
        out: *mut u8,
        length: usize,
    ) -> Reply;
    pub fn planner_rule(
        g: Graph,
        multipliers: *const i32,
        multipliers_length: usize,
        ashore: *const u8,
        ashore_length: usize,
        ceiling: i64,
        denominator: u64,
        out: *mut u8,
        length: usize,
    ) -> Reply;
    pub fn planner_recent(
        g: *mut Graph,
        w: usize,
        edges: *const usize,
        edges_length: usize,
        times: *const i32,
        times_length: usize,
    ) -> Reply;
    pub fn planner_simulate(
        g: Graph,
        edges: *const usize,
        edges_length: usize,
        student: u64,
        spread: u64,
        times: *mut i64,
        length: usize,
    ) -> Sailed;
    pub fn planner_compare(
        g: Graph,
        multipliers: *const i32,
        multipliers_length: usize,
        ashore: *const u8,
        ashore_length: usize,
        terms: Terms,
        sweeps: *const u32,
        sweeps_length: usize,
        steps: *const u32,
        steps_length: usize,
        report: *mut u64,
        length: usize,
    ) -> Reply;
    pub fn planner_fresh() -> Record;
    pub fn planner_open(
        s: *mut Record,
        g: Graph,
        multipliers: *const i32,
        multipliers_length: usize,
        ashore: *const u8,
        ashore_length: usize,
        settings: Settings,
    ) -> Reply;
    pub fn planner_run(s: *mut Record, budget: u64) -> Reply;
    pub fn planner_tell(s: *mut Record) -> Reply;
    pub fn planner_show(s: *mut Record, out: *mut u8, length: usize) -> Reply;
    pub fn planner_close(s: *mut Record) -> Reply;
    pub fn planner_fresh_shelf() -> Places;
    pub fn planner_save(shelf: *mut Places, s: *const Record, name: usize) -> Reply;
    pub fn planner_back(s: *mut Record, shelf: *const Places, name: usize) -> Reply;
    pub fn planner_fresh_dispatcher() -> Turns;
    pub fn planner_add(
        d: *mut Turns,
        g: Graph,
        multipliers: *const i32,
        multipliers_length: usize,
        ashore: *const u8,
        ashore_length: usize,
        settings: Settings,
    ) -> Reply;
    pub fn planner_turn(d: *mut Turns, p: u64) -> Reply;
    pub fn planner_tell_at(d: *mut Turns, place: usize) -> Reply;
    pub fn planner_show_at(d: *mut Turns, place: usize, out: *mut u8, length: usize) -> Reply;
    pub fn planner_close_at(d: *mut Turns, place: usize) -> Reply;
}
