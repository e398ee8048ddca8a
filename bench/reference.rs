//! The decomposition of docs/RULES.md, sections 1 to 8, by hand and for speed: what the proved program is measured against.
//!
//!     reference FORM [MASKS SEED PIECES BUDGET]...
//!     reference FORM text < LAYER
//!
//! Each four numbers ask for a made layer and its decomposition, and one line tells what came of it. With `text` the layer text on standard
//! input is decomposed, which must be in order, and the result text is printed. FORM is the form of the search:
//!
//! - `lists`: a place that is reached sums up what each mask adds there, along the list of its earlier neighbours;
//! - `push`: every place has these sums at all times, and a mask that is tried is added to those of the later neighbours, and taken
//!   off again afterwards.

mod small_graphs;

use std::env;
use std::io::{self, BufWriter, Read, Write};
use std::ops::Range;

const PIECES_GREATEST: usize = 512;
const MASKS_GREATEST: usize = 8;
/// Stands for the fixed mask of a piece that has none.
const NOT_FIXED: u8 = 255;

struct Settings {
    masks: usize,
    spacing: i64,
    margin: i64,
    weight: u32,
    budget: u64,
}

struct Piece {
    shape: u32,
    x1: i64,
    y1: i64,
    x2: i64,
    y2: i64,
    fixed: u8,
}

// ---- edges, ties and units (RULES 2 and 17)

enum Edge {
    Conflict,
    Stitch,
    Tie,
    None,
}

fn edge(settings: &Settings, a: &Piece, b: &Piece) -> Edge {
    let ox = a.x2.min(b.x2) - a.x1.max(b.x1);
    let oy = a.y2.min(b.y2) - a.y1.max(b.y1);
    if a.shape != b.shape {
        let gap_x = (-ox).max(0);
        let gap_y = (-oy).max(0);
        if gap_x * gap_x + gap_y * gap_y < settings.spacing * settings.spacing {
            return Edge::Conflict;
        }
        return Edge::None;
    }
    let contact = if ox == 0 {
        oy
    } else if oy == 0 {
        ox
    } else {
        0
    };
    if contact >= settings.margin {
        Edge::Stitch
    } else if contact > 0 {
        Edge::Tie
    } else {
        Edge::None
    }
}

/// The units, and the neighbours of each in rising order, once for each edge. A piece that gives no unit its number has no neighbours.
struct Graph {
    /// The unit of each piece.
    units: Vec<u16>,
    /// The fixed mask of each unit.
    fixed: Vec<u8>,
    conflicts: Vec<Vec<u16>>,
    stitches: Vec<Vec<u16>>,
}

fn graph(settings: &Settings, pieces: &[Piece]) -> Graph {
    let mut conflicts = vec![Vec::new(); pieces.len()];
    let mut stitches = vec![Vec::new(); pieces.len()];
    let mut units: Vec<u16> = (0..pieces.len() as u16).collect();
    let mut tied = false;
    for (j, b) in pieces.iter().enumerate() {
        for (i, a) in pieces[..j].iter().enumerate() {
            let lists = match edge(settings, a, b) {
                Edge::Conflict => &mut conflicts,
                Edge::Stitch => &mut stitches,
                Edge::Tie => {
                    tied = true;
                    unite(&mut units, i, j);
                    continue;
                }
                Edge::None => continue,
            };
            lists[i].push(j as u16);
            lists[j].push(i as u16);
        }
    }
    if tied {
        for piece in 0..pieces.len() {
            units[piece] = lowest(&mut units, piece) as u16;
        }
        conflicts = merged(&conflicts, &units);
        stitches = merged(&stitches, &units);
    }
    Graph {
        fixed: fixed_units(pieces, &units),
        units,
        conflicts,
        stitches,
    }
}

/// The fixed masks of units. Those of the pieces of one unit do not differ.
fn fixed_units(pieces: &[Piece], units: &[u16]) -> Vec<u8> {
    let mut fixed = vec![NOT_FIXED; pieces.len()];
    for (piece, &unit) in pieces.iter().zip(units) {
        if piece.fixed != NOT_FIXED {
            fixed[unit as usize] = piece.fixed;
        }
    }
    fixed
}

/// The lowest piece of a unit. Each piece names one of its unit that is not above it, and the lowest itself.
fn lowest(units: &mut [u16], mut piece: usize) -> usize {
    while units[piece] as usize != piece {
        units[piece] = units[units[piece] as usize];
        piece = units[piece] as usize;
    }
    piece
}

fn unite(units: &mut [u16], i: usize, j: usize) {
    let (a, b) = (lowest(units, i), lowest(units, j));
    units[a.max(b)] = a.min(b) as u16;
}

/// The lists of units, from those of their pieces, without the edges inside a unit.
fn merged(lists: &[Vec<u16>], units: &[u16]) -> Vec<Vec<u16>> {
    let mut merged = vec![Vec::new(); lists.len()];
    for (list, &unit) in lists.iter().zip(units) {
        let others = list.iter().map(|&other| units[other as usize]);
        merged[unit as usize].extend(others.filter(|&other| other != unit));
    }
    for list in &mut merged {
        list.sort_unstable();
    }
    merged
}

/// The neighbours of a list, each once.
fn distinct(list: &[u16]) -> impl Iterator<Item = usize> + '_ {
    let mut last = None;
    list.iter()
        .map(|&u| u as usize)
        .filter(move |&u| last.replace(u) != Some(u))
}

// ---- peeling (RULES 4)

struct Removal {
    unit: usize,
    /// The stitch neighbour of a unit that went by (B).
    stitched: Option<usize>,
}

struct Peeled {
    core: Vec<bool>,
    removals: Vec<Removal>,
}

/// A unit that may go still may when others are gone, so the units that may are kept, and only neighbours are looked at again. Fixed units
/// stay.
fn peel(settings: &Settings, graph: &Graph) -> Peeled {
    let n = graph.conflicts.len();
    let mut core: Vec<bool> = (0..n).map(|v| graph.units[v] as usize == v).collect();
    let degrees = |lists: &[Vec<u16>]| lists.iter().map(|list| distinct(list).count()).collect();
    let mut near: Vec<usize> = degrees(&graph.conflicts);
    let mut stitched: Vec<usize> = degrees(&graph.stitches);
    let may_go = |v: usize, near: usize, stitched: usize| {
        graph.fixed[v] == NOT_FIXED
            && match stitched {
                0 => near < settings.masks,
                1 => near == 0,
                _ => false,
            }
    };
    let mut ready: Vec<bool> = (0..n)
        .map(|v| core[v] && may_go(v, near[v], stitched[v]))
        .collect();
    let mut removals = Vec::new();
    let mut v = 0;
    while v < n {
        if !ready[v] {
            v += 1;
            continue;
        }
        ready[v] = false;
        core[v] = false;
        let mut next = v + 1;
        for u in distinct(&graph.conflicts[v]) {
            near[u] -= 1;
        }
        for u in distinct(&graph.stitches[v]) {
            stitched[u] -= 1;
        }
        for &u in graph.conflicts[v].iter().chain(&graph.stitches[v]) {
            let u = u as usize;
            if core[u] && may_go(u, near[u], stitched[u]) {
                ready[u] = true;
                next = next.min(u);
            }
        }
        let neighbour = graph.stitches[v]
            .iter()
            .map(|&u| u as usize)
            .find(|&u| core[u]);
        removals.push(Removal {
            unit: v,
            stitched: neighbour,
        });
        v = next;
    }
    Peeled { core, removals }
}

// ---- components (RULES 5)

/// The component of a unit, in rising order. Its units are taken out of what is left of the core.
fn component(graph: &Graph, left: &mut [bool], unit: usize) -> Vec<usize> {
    let mut members = vec![unit];
    left[unit] = false;
    let mut at = 0;
    while at < members.len() {
        let v = members[at];
        at += 1;
        for &u in graph.conflicts[v].iter().chain(&graph.stitches[v]) {
            let u = u as usize;
            if left[u] {
                left[u] = false;
                members.push(u);
            }
        }
    }
    members.sort_unstable();
    members
}

/// For each place the places that conflict edges and stitch edges join to it, once for each edge, all in one list.
struct Neighbours {
    starts: Vec<u32>,
    list: Vec<u16>,
}

impl Neighbours {
    /// The neighbours on one side of each place: those for which `keep(place, neighbour)` holds.
    fn new(graph: &Graph, members: &[usize], keep: impl Fn(usize, usize) -> bool) -> Neighbours {
        let mut places = vec![None; graph.conflicts.len()];
        for (p, &v) in members.iter().enumerate() {
            places[v] = Some(p);
        }
        let mut starts = vec![0];
        let mut list = Vec::new();
        for (p, &v) in members.iter().enumerate() {
            for edges in [&graph.conflicts[v], &graph.stitches[v]] {
                let there = edges.iter().filter_map(|&u| places[u as usize]);
                list.extend(there.filter(|&q| keep(p, q)).map(|q| q as u16));
                starts.push(list.len() as u32);
            }
        }
        Neighbours { starts, list }
    }

    fn size(&self) -> usize {
        self.starts.len() / 2
    }

    #[inline]
    fn of(&self, p: usize) -> (&[u16], &[u16]) {
        let from = self.starts[2 * p] as usize;
        let middle = self.starts[2 * p + 1] as usize;
        let to = self.starts[2 * p + 2] as usize;
        (&self.list[from..middle], &self.list[middle..to])
    }
}

// ---- first assignment and search (RULES 6)

type Masks = [u8; PIECES_GREATEST];
type Row = [u32; MASKS_GREATEST];

/// What each mask adds at a place, where the earlier places have their masks. A stitch edge costs one but on the neighbour's mask.
#[inline]
fn added_row(earlier: &Neighbours, weight: u32, masks: &Masks, p: usize) -> Row {
    let (conflicts, stitches) = earlier.of(p);
    let mut row = [stitches.len() as u32; MASKS_GREATEST];
    for &q in conflicts {
        row[masks[q as usize % PIECES_GREATEST] as usize % MASKS_GREATEST] += weight;
    }
    for &q in stitches {
        row[masks[q as usize % PIECES_GREATEST] as usize % MASKS_GREATEST] -= 1;
    }
    row
}

/// The masks that a place may have: the fixed one, or those below a number.
#[inline]
fn candidates(fixed: u8, most: usize) -> Range<usize> {
    if fixed == NOT_FIXED {
        return 0..most;
    }
    let mask = usize::from(fixed) % MASKS_GREATEST;
    mask..mask + 1
}

/// `fixed` has the fixed mask of each place.
fn first_assignment(settings: &Settings, earlier: &Neighbours, fixed: &[u8]) -> (Masks, u32) {
    let mut masks = [0; PIECES_GREATEST];
    let mut cost = 0;
    for p in 0..earlier.size() {
        let row = added_row(earlier, settings.weight, &masks, p);
        let mask = candidates(fixed[p], settings.masks)
            .min_by_key(|&m| row[m])
            .unwrap_or(0);
        masks[p] = mask as u8;
        cost += row[mask];
    }
    (masks, cost)
}

fn has_fixed(fixed: &[u8]) -> bool {
    fixed.iter().any(|&mask| mask != NOT_FIXED)
}

/// A cost that no assignment has.
const NO_COST: u32 = u32::MAX;

/// The cost at which the search of a component ends, where the library has it: on three masks, with at most five places, none of them fixed,
/// no stitch edge, and no two conflict edges between the same places.
fn final_cost(settings: &Settings, earlier: &Neighbours, fixed: &[u8]) -> u32 {
    if settings.masks != small_graphs::MASKS
        || earlier.size() > small_graphs::PLACES
        || has_fixed(fixed)
    {
        return NO_COST;
    }
    let mut index = 0;
    for p in 0..earlier.size() {
        let (conflicts, stitches) = earlier.of(p);
        for &q in conflicts {
            let bit = small_graphs::pair_bit(q as usize, p);
            if index & bit != 0 {
                return NO_COST;
            }
            index |= bit;
        }
        if !stitches.is_empty() {
            return NO_COST;
        }
    }
    settings.weight * u32::from(small_graphs::ENTRIES[index])
}

struct Outcome {
    incumbent: Masks,
    left: u64,
    stopped: bool,
}

struct ListState {
    partial: Masks,
    incumbent: Masks,
    cost: u32,
    stopped: bool,
    /// The steps that were left when the library ended the search.
    left_at_end: Option<u64>,
}

struct ListSearch<'a> {
    earlier: &'a Neighbours,
    fixed: &'a [u8],
    size: usize,
    masks: usize,
    weight: u32,
    final_cost: u32,
}

impl ListSearch<'_> {
    /// Searches the places from p on, and answers how many steps are left then. Only a component with a fixed place has to look for them,
    /// and then masks cannot be renamed, so that those in use are no limit.
    fn place<const FIXED: bool>(
        &self,
        state: &mut ListState,
        p: usize,
        cost: u32,
        used: usize,
        mut left: u64,
    ) -> u64 {
        if p == self.size {
            state.incumbent = state.partial;
            state.cost = cost;
            // Without a step left every place returns, so that no mask has to ask whether this is the end.
            if cost == self.final_cost {
                state.left_at_end = Some(left);
                return 0;
            }
            return left;
        }
        let row = added_row(self.earlier, self.weight, &state.partial, p);
        let tried = if FIXED {
            candidates(self.fixed[p], self.masks)
        } else {
            0..self.masks.min(used + 1)
        };
        for m in tried {
            if left == 0 {
                state.stopped = true;
                return 0;
            }
            left -= 1;
            let total = cost + row[m];
            if total < state.cost {
                state.partial[p] = m as u8;
                left = self.place::<FIXED>(state, p + 1, total, used.max(m + 1), left);
            }
        }
        left
    }
}

fn search_lists(
    settings: &Settings,
    earlier: &Neighbours,
    fixed: &[u8],
    first: Masks,
    cost: u32,
    final_cost: u32,
    left: u64,
) -> Outcome {
    let search = ListSearch {
        earlier,
        fixed,
        size: earlier.size(),
        masks: settings.masks.min(MASKS_GREATEST),
        weight: settings.weight,
        final_cost,
    };
    let mut state = ListState {
        partial: [0; PIECES_GREATEST],
        incumbent: first,
        cost,
        stopped: false,
        left_at_end: None,
    };
    let left = if has_fixed(fixed) {
        search.place::<true>(&mut state, 0, 0, 0, left)
    } else {
        search.place::<false>(&mut state, 0, 0, 0, left)
    };
    Outcome {
        incumbent: state.incumbent,
        left: state.left_at_end.unwrap_or(left),
        stopped: state.stopped && state.left_at_end.is_none(),
    }
}

struct PushSearch<'a> {
    later: &'a Neighbours,
    fixed: &'a [u8],
    size: usize,
    masks: usize,
    weight: u32,
    final_cost: u32,
    /// What each mask adds at each place.
    rows: [Row; PIECES_GREATEST],
    partial: Masks,
    incumbent: Masks,
    cost: u32,
    left: u64,
    stopped: bool,
    left_at_end: Option<u64>,
}

impl PushSearch<'_> {
    fn push(&mut self, p: usize, m: usize) {
        let (conflicts, stitches) = self.later.of(p);
        let weight = self.weight;
        for &q in conflicts {
            self.rows[q as usize % PIECES_GREATEST][m] += weight;
        }
        for &q in stitches {
            self.rows[q as usize % PIECES_GREATEST][m] -= 1;
        }
    }

    fn take_back(&mut self, p: usize, m: usize) {
        let (conflicts, stitches) = self.later.of(p);
        let weight = self.weight;
        for &q in conflicts {
            self.rows[q as usize % PIECES_GREATEST][m] -= weight;
        }
        for &q in stitches {
            self.rows[q as usize % PIECES_GREATEST][m] += 1;
        }
    }

    /// Searches the places from p on, with the masks of the other search.
    fn place<const FIXED: bool>(&mut self, p: usize, cost: u32, used: usize) {
        if p == self.size {
            self.incumbent = self.partial;
            self.cost = cost;
            if cost == self.final_cost {
                self.left_at_end = Some(self.left);
                self.left = 0;
            }
            return;
        }
        let tried = if FIXED {
            candidates(self.fixed[p], self.masks)
        } else {
            0..self.masks.min(used + 1)
        };
        for m in tried {
            if self.left == 0 {
                self.stopped = true;
                return;
            }
            self.left -= 1;
            let total = cost + self.rows[p][m];
            if total < self.cost {
                self.partial[p] = m as u8;
                self.push(p, m);
                self.place::<FIXED>(p + 1, total, used.max(m + 1));
                self.take_back(p, m);
            }
        }
    }
}

fn search_push(
    settings: &Settings,
    earlier: &Neighbours,
    later: &Neighbours,
    fixed: &[u8],
    first: Masks,
    cost: u32,
    final_cost: u32,
    left: u64,
) -> Outcome {
    let mut rows = [[0; MASKS_GREATEST]; PIECES_GREATEST];
    for (p, row) in rows.iter_mut().enumerate().take(earlier.size()) {
        *row = [earlier.of(p).1.len() as u32; MASKS_GREATEST];
    }
    let mut search = PushSearch {
        later,
        fixed,
        size: later.size(),
        masks: settings.masks.min(MASKS_GREATEST),
        weight: settings.weight,
        final_cost,
        rows,
        partial: [0; PIECES_GREATEST],
        incumbent: first,
        cost,
        left,
        stopped: false,
        left_at_end: None,
    };
    if has_fixed(fixed) {
        search.place::<true>(0, 0, 0);
    } else {
        search.place::<false>(0, 0, 0);
    }
    Outcome {
        incumbent: search.incumbent,
        left: search.left_at_end.unwrap_or(search.left),
        stopped: search.stopped && search.left_at_end.is_none(),
    }
}

#[derive(Clone, Copy)]
enum Form {
    Lists,
    Push,
}

fn search_component(
    form: Form,
    settings: &Settings,
    graph: &Graph,
    members: &[usize],
    left: u64,
) -> Outcome {
    let earlier = Neighbours::new(graph, members, |p, q| q < p);
    let fixed: Vec<u8> = members.iter().map(|&v| graph.fixed[v]).collect();
    let (first, cost) = first_assignment(settings, &earlier, &fixed);
    let end = final_cost(settings, &earlier, &fixed);
    if cost == end {
        return Outcome {
            incumbent: first,
            left,
            stopped: false,
        };
    }
    match form {
        Form::Lists => search_lists(settings, &earlier, &fixed, first, cost, end, left),
        Form::Push => {
            let later = Neighbours::new(graph, members, |p, q| p < q);
            search_push(settings, &earlier, &later, &fixed, first, cost, end, left)
        }
    }
}

// ---- putting back (RULES 7), score (RULES 3) and the whole run (RULES 8)

fn put_back(graph: &Graph, peeled: &Peeled, masks: &mut [u8]) {
    let mut there = peeled.core.clone();
    for removal in peeled.removals.iter().rev() {
        let v = removal.unit;
        masks[v] = match removal.stitched {
            Some(u) => masks[u],
            None => {
                let back = graph.conflicts[v]
                    .iter()
                    .map(|&u| u as usize)
                    .filter(|&u| there[u]);
                let used = back.fold(0u32, |used, u| used | 1 << masks[u]);
                used.trailing_ones() as u8
            }
        };
        there[v] = true;
    }
}

struct Run {
    masks: Vec<u8>,
    conflicts: u32,
    stitches: u32,
    cost: u32,
    steps: u64,
    best: bool,
}

fn decompose(form: Form, settings: &Settings, pieces: &[Piece]) -> Run {
    let graph = graph(settings, pieces);
    let peeled = peel(settings, &graph);
    let mut masks = vec![0; pieces.len()];
    let mut core_left = peeled.core.clone();
    let mut left = settings.budget;
    let mut stopped = false;
    for v in 0..pieces.len() {
        if core_left[v] {
            let members = component(&graph, &mut core_left, v);
            let outcome = search_component(form, settings, &graph, &members, left);
            left = outcome.left;
            stopped |= outcome.stopped;
            for (&v, &mask) in members.iter().zip(&outcome.incumbent) {
                masks[v] = mask;
            }
        }
    }
    put_back(&graph, &peeled, &mut masks);
    let count = |lists: &[Vec<u16>], counts: fn(u8, u8) -> bool| {
        let ends = lists
            .iter()
            .enumerate()
            .flat_map(|(j, list)| list.iter().map(move |&i| (i as usize, j)));
        ends.filter(|&(i, j)| i < j && counts(masks[i], masks[j]))
            .count() as u32
    };
    let conflicts = count(&graph.conflicts, |a, b| a == b);
    let stitches = count(&graph.stitches, |a, b| a != b);
    Run {
        conflicts,
        stitches,
        cost: settings.weight * conflicts + stitches,
        steps: settings.budget - left,
        best: !stopped,
        masks: graph
            .units
            .iter()
            .map(|&unit| masks[unit as usize])
            .collect(),
    }
}

// ---- made layers

fn made_layer(seed: u32, count: usize) -> Vec<Piece> {
    let mut state = seed;
    let mut draw = || {
        state = state.wrapping_mul(1_664_525).wrapping_add(1_013_904_223);
        40 * i64::from(state / 65_536 % 32)
    };
    (0..count)
        .map(|i| {
            let x1 = draw();
            let y1 = draw();
            Piece {
                shape: i as u32,
                x1,
                y1,
                x2: x1 + 20,
                y2: y1 + 20,
                fixed: NOT_FIXED,
            }
        })
        .collect()
}

// ---- layer texts (RULES 9) and result texts (RULES 10)

/// The layer of a text that is in order.
fn read_layer(text: &str) -> Option<(Settings, Vec<Piece>)> {
    let mut lines = text.lines().map(|line| -> Option<Vec<u32>> {
        let (_, numbers) = line.split_once('=')?;
        numbers.split(',').map(|word| word.parse().ok()).collect()
    });
    let mut setting = || Some(*lines.next()??.first()?);
    let settings = Settings {
        masks: setting()? as usize,
        spacing: setting()?.into(),
        margin: setting()?.into(),
        weight: setting()?,
        budget: setting()?.into(),
    };
    let count = setting()? as usize;
    let piece = |numbers: Option<Vec<u32>>| match numbers?[..] {
        [shape, x1, y1, x2, y2] => Some(Piece {
            shape,
            x1: x1.into(),
            y1: y1.into(),
            x2: x2.into(),
            y2: y2.into(),
            fixed: NOT_FIXED,
        }),
        _ => None,
    };
    let mut pieces = lines
        .by_ref()
        .take(count)
        .map(piece)
        .collect::<Option<Vec<Piece>>>()?;
    for numbers in lines {
        match numbers?[..] {
            [piece, mask] => pieces.get_mut(piece as usize)?.fixed = mask as u8,
            _ => return None,
        }
    }
    Some((settings, pieces))
}

fn write_result(out: &mut impl Write, run: &Run) -> io::Result<()> {
    let verdict = if run.best { "best" } else { "open" };
    writeln!(
        out,
        "verdict={verdict}\nconflicts={}\nstitches={}\ncost={}\nsteps={}",
        run.conflicts, run.stitches, run.cost, run.steps
    )?;
    run.masks
        .iter()
        .try_for_each(|mask| writeln!(out, "mask={mask}"))
}

fn usage() -> ! {
    eprintln!("usage: reference lists|push [MASKS SEED PIECES BUDGET]..., or reference lists|push text < LAYER");
    std::process::exit(2);
}

fn main() -> io::Result<()> {
    let mut words = env::args().skip(1);
    let form = match words.next().as_deref() {
        Some("lists") => Form::Lists,
        Some("push") => Form::Push,
        _ => usage(),
    };
    let words: Vec<String> = words.collect();
    let mut out = BufWriter::new(io::stdout());
    if words == ["text"] {
        let mut text = String::new();
        io::stdin().read_to_string(&mut text)?;
        let (settings, pieces) = read_layer(&text).unwrap_or_else(|| usage());
        write_result(&mut out, &decompose(form, &settings, &pieces))?;
        return out.flush();
    }
    let numbers: Vec<u32> = words
        .iter()
        .map(|word| word.parse().unwrap_or_else(|_| usage()))
        .collect();
    for four in numbers.chunks(4) {
        let (masks, seed, count, budget) = match *four {
            [masks @ 2..=8, seed, count @ 0..=512, budget] => {
                (masks as usize, seed, count as usize, u64::from(budget))
            }
            _ => usage(),
        };
        let settings = Settings {
            masks,
            spacing: 80,
            margin: 10,
            weight: 10,
            budget,
        };
        let run = decompose(form, &settings, &made_layer(seed, count));
        let digest = run.masks.iter().fold(0u32, |d, &mask| {
            d.wrapping_mul(31).wrapping_add(u32::from(mask) + 1)
        });
        let verdict = if run.best { "best" } else { "open" };
        writeln!(
            out,
            "made masks={masks} seed={seed} pieces={count} budget={budget}: conflicts={} stitches={} cost={} steps={} {verdict} digest={digest}",
            run.conflicts, run.stitches, run.cost, run.steps
        )?;
    }
    out.flush()
}
