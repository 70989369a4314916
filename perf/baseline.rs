// Plain Rust versions of what perf/timing.rt.txt times: erosion and dilation of the same sheets by the 3 × 3 square,
// once in passes, one for each offset over runs of contiguous cells, and once cell by cell; the meet and join of two
// sheets, once over a copy of the first by iterators, and once by indices; and, in passes alone and where no cells lie between
// the lists, an opening, a reconstruction, a spectrum and a skeleton in memory that is laid out as a rack's: three places and two
// working planes.
// Its arguments are the number of repetitions, the side of the sheet, and how many cells lie between the list that is
// read and the list that is written.
use std::time::Instant;

// The 3 × 3 square, as columns and rows, in reading order.
const SQUARE: [(isize, isize); 9] =
    [(-1, -1), (0, -1), (1, -1), (-1, 0), (0, 0), (1, 0), (-1, 1), (0, 1), (1, 1)];

// The depth of the spectrum and of the skeleton.
const DEPTH: usize = 8;

// What is summed by a checksum: a level, or a number that a call tells.
trait Summed: Copy {
    fn value(self) -> u64;
}

impl Summed for u8 {
    fn value(self) -> u64 {
        self.into()
    }
}

impl Summed for i32 {
    fn value(self) -> u64 {
        self as u64
    }
}

impl Summed for u32 {
    fn value(self) -> u64 {
        self.into()
    }
}

impl Summed for u64 {
    fn value(self) -> u64 {
        self
    }
}

// A level, as the number that it is kept as: its height. Heat is signed here, since baseline x86-64, for which `rustc -O` compiles,
// has no unsigned comparison of vectors; the kit compiles for x86-64-v2, which has one. See docs/PERFORMANCE.md.
trait Level: Summed + Ord + Default {
    fn height(self) -> u32 {
        self.value() as u32
    }
}

impl Level for u8 {}

impl Level for i32 {}

#[derive(Clone, Copy)]
enum Operation {
    Erosion,
    Dilation,
}

// What to time.
#[derive(Clone, Copy)]
struct Task {
    turns: usize,
    side: usize,
    gap: usize,
}

// A linear congruential generator, whose high bits make the cells.
struct Random {
    state: u32,
}

impl Random {
    fn next(&mut self) -> u32 {
        self.state = self.state.wrapping_mul(1_664_525).wrapping_add(1_013_904_223);
        self.state
    }
}

// The run of cells whose neighbours `step` on lie on the sheet, of `side` cells in a row: its first cell and its length.
fn inside(step: isize, side: usize) -> (usize, usize) {
    let margin = step.unsigned_abs().min(side);
    (if step < 0 { margin } else { 0 }, side - margin)
}

// One pass for each offset; every cell starts from its own level, and outside counts as lowest.
fn passes<L: Level>(kept: impl Fn(L, L) -> L, from: &[L], to: &mut [L], w: usize, h: usize, offsets: &[(isize, isize)]) {
    to.copy_from_slice(from);
    for &(column, row) in offsets {
        let (first, len) = inside(column, w);
        let source = first.wrapping_add_signed(column);
        for y in 0..h {
            let line = &mut to[y * w..(y + 1) * w];
            let Some(other) = y.checked_add_signed(row).filter(|&other| other < h) else {
                for cell in line {
                    *cell = kept(*cell, L::default());
                }
                continue;
            };
            let read = &from[other * w + source..other * w + source + len];
            for cell in &mut line[..first] {
                *cell = kept(*cell, L::default());
            }
            for (cell, neighbour) in line[first..first + len].iter_mut().zip(read) {
                *cell = kept(*cell, *neighbour);
            }
            for cell in &mut line[first + len..] {
                *cell = kept(*cell, L::default());
            }
        }
    }
}

// Every cell on its own: the extreme of what it reads at each offset.
fn cell_by_cell<L: Level>(kept: impl Fn(L, L) -> L, from: &[L], to: &mut [L], w: usize, h: usize, offsets: &[(isize, isize)]) {
    for y in 0..h {
        for x in 0..w {
            let mut level = from[y * w + x];
            for &(column, row) in offsets {
                let (x, y) = (x.wrapping_add_signed(column), y.wrapping_add_signed(row));
                let neighbour = if x < w && y < h { from[y * w + x] } else { L::default() };
                level = kept(level, neighbour);
            }
            to[y * w + x] = level;
        }
    }
}

// Dilation reads at the opposites of the offsets.
fn opposites() -> [(isize, isize); 9] {
    SQUARE.map(|(column, row)| (-column, -row))
}

#[inline(never)]
fn by_passes<L: Level>(op: Operation, from: &[L], to: &mut [L], w: usize, h: usize) {
    match op {
        Operation::Erosion => passes(L::min, from, to, w, h, &SQUARE),
        Operation::Dilation => passes(L::max, from, to, w, h, &opposites()),
    }
}

#[inline(never)]
fn by_cells<L: Level>(op: Operation, from: &[L], to: &mut [L], w: usize, h: usize) {
    match op {
        Operation::Erosion => cell_by_cell(L::min, from, to, w, h, &SQUARE),
        Operation::Dilation => cell_by_cell(L::max, from, to, w, h, &opposites()),
    }
}

// The meet or join of two sheets: a copy of one, and each cell with the other's at its place.
fn zipped<L: Level>(kept: impl Fn(L, L) -> L, one: &[L], other: &[L], to: &mut [L]) {
    to.copy_from_slice(one);
    for (cell, level) in to.iter_mut().zip(other) {
        *cell = kept(*cell, *level);
    }
}

fn indexed<L: Level>(kept: impl Fn(L, L) -> L, one: &[L], other: &[L], to: &mut [L]) {
    for place in 0..to.len() {
        to[place] = kept(one[place], other[place]);
    }
}

#[inline(never)]
fn combine<L: Level>(op: Operation, by_index: bool, one: &[L], other: &[L], to: &mut [L]) {
    match (op, by_index) {
        (Operation::Erosion, false) => zipped(L::min, one, other, to),
        (Operation::Dilation, false) => zipped(L::max, one, other, to),
        (Operation::Erosion, true) => indexed(L::min, one, other, to),
        (Operation::Dilation, true) => indexed(L::max, one, other, to),
    }
}

// One dilation of a plane met with the upper sheet, by way of the other plane; tells whether a cell rose.
fn grow<L: Level>(upper: &[L], plane: &mut [L], spare: &mut [L], w: usize, h: usize) -> bool {
    passes(L::max, plane, spare, w, h, &opposites());
    for (cell, level) in spare.iter_mut().zip(upper) {
        *cell = (*cell).min(*level);
    }
    if !spare.iter().zip(&*plane).any(|(new, old)| new > old) {
        return false;
    }
    plane.copy_from_slice(spare);
    true
}

// The reconstruction of the sheet in place 2 from the marker in place 1, in the first plane and then in place 3: the number of
// changing rounds.
#[inline(never)]
fn regrow<L: Level>(memory: &mut [L], w: usize, h: usize) -> u64 {
    let (places, planes) = memory.split_at_mut(3 * w * h);
    let (plane, spare) = planes.split_at_mut(w * h);
    let (marker, upper) = places[..2 * w * h].split_at(w * h);
    zipped(L::min, marker, upper, plane);
    let mut rounds = 0;
    while grow(upper, plane, spare, w, h) {
        rounds += 1;
    }
    places[2 * w * h..].copy_from_slice(plane);
    rounds
}

// Makes of a plane what a map makes of it so many times, two at a time to and fro between the planes.
fn repeat<L: Level>(map: impl Fn(&[L], &mut [L]), times: usize, plane: &mut [L], spare: &mut [L]) {
    for _ in 0..times / 2 {
        map(plane, spare);
        map(spare, plane);
    }
    if times % 2 == 1 {
        map(plane, spare);
        plane.copy_from_slice(spare);
    }
}

// The opening of size 8 of the sheet in place 1, in the first plane and then in place 3.
#[inline(never)]
fn open<L: Level>(memory: &mut [L], w: usize, h: usize) -> u64 {
    let (places, planes) = memory.split_at_mut(3 * w * h);
    let (plane, spare) = planes.split_at_mut(w * h);
    plane.copy_from_slice(&places[..w * h]);
    repeat(|from, to| passes(L::min, from, to, w, h, &SQUARE), 8, plane, spare);
    repeat(|from, to| passes(L::max, from, to, w, h, &opposites()), 8, plane, spare);
    places[2 * w * h..].copy_from_slice(plane);
    0
}

// The passes of the erosion by the square that skips what falls outside: cells whose neighbours lie outside keep what they have.
fn passes_inside<L: Level>(from: &[L], to: &mut [L], w: usize, h: usize) {
    to.copy_from_slice(from);
    for (column, row) in SQUARE {
        let (first, len) = inside(column, w);
        let (top, rows) = inside(row, h);
        let source = first.wrapping_add_signed(column);
        for y in top..top + rows {
            let other = y.wrapping_add_signed(row);
            let read = &from[other * w + source..other * w + source + len];
            for (cell, neighbour) in to[y * w + first..y * w + first + len].iter_mut().zip(read) {
                *cell = (*cell).min(*neighbour);
            }
        }
    }
}

// The areas of what two maps in turn make of a sheet, each as many times, for each number of times from 0 on.
fn areas<L: Level>(
    first: impl Fn(&[L], &mut [L]),
    second: impl Fn(&[L], &mut [L]),
    sheet: &[L],
    plane: &mut [L],
    spare: &mut [L],
    list: &mut [u64],
) {
    for (times, number) in list.iter_mut().enumerate() {
        plane.copy_from_slice(sheet);
        repeat(&first, times, plane, spare);
        repeat(&second, times, plane, spare);
        *number = plane.iter().map(|level| u64::from(level.height())).sum();
    }
}

// The spectrum of the sheet in place 1: the areas of the closings from the greatest on and those of the openings, and then how far
// each is above the next.
#[inline(never)]
fn spectrum<L: Level>(memory: &mut [L], w: usize, h: usize, list: &mut [u64]) {
    let (places, planes) = memory.split_at_mut(3 * w * h);
    let (plane, spare) = planes.split_at_mut(w * h);
    let sheet = &places[..w * h];
    let erosion = |from: &[L], to: &mut [L]| passes(L::min, from, to, w, h, &SQUARE);
    let erosion_inside = |from: &[L], to: &mut [L]| passes_inside(from, to, w, h);
    let dilation = |from: &[L], to: &mut [L]| passes(L::max, from, to, w, h, &opposites());
    areas(dilation, erosion_inside, sheet, plane, spare, &mut list[..=DEPTH]);
    list[..=DEPTH].reverse();
    areas(erosion, dilation, sheet, plane, spare, &mut list[DEPTH..]);
    for k in 1..list.len() {
        list[k - 1] = list[k - 1].saturating_sub(list[k]);
    }
}

// Writes the heights of a sheet.
fn write_heights<L: Level>(sheet: &[L], piece: &mut [u32]) {
    for (number, level) in piece.iter_mut().zip(sheet) {
        *number = level.height();
    }
}

// The skeleton of the sheet in place 1: a piece for each size, the heights of the plane minus those of its opening of size 1, after which
// the plane is shrunk; and last the heights that are left.
#[inline(never)]
fn skeleton<L: Level>(memory: &mut [L], w: usize, h: usize, list: &mut [u32]) {
    let (places, planes) = memory.split_at_mut(3 * w * h);
    let (plane, spare) = planes.split_at_mut(w * h);
    let (pieces, rest) = list.split_at_mut(DEPTH * w * h);
    plane.copy_from_slice(&places[..w * h]);
    for piece in pieces.chunks_exact_mut(w * h) {
        write_heights(plane, piece);
        passes(L::min, plane, spare, w, h, &SQUARE);
        passes(L::max, spare, plane, w, h, &opposites());
        for (number, level) in piece.iter_mut().zip(&*plane) {
            *number = number.saturating_sub(level.height());
        }
        plane.copy_from_slice(spare);
    }
    write_heights(plane, rest);
}

// A number that depends on every number and on its place.
fn checksum<N: Summed>(numbers: &[N]) -> u64 {
    numbers.iter().fold(0, |sum: u64, &number| sum.wrapping_mul(31).wrapping_add(number.value()))
}

// Repeats an operation, and prints its best time in nanoseconds and the checksum of what it wrote.
fn time<N: Summed>(label: &str, turns: usize, to: &mut [N], mut run: impl FnMut(&mut [N])) {
    let mut best = u128::MAX;
    let mut sum = 0;
    for _ in 0..turns {
        let start = Instant::now();
        run(to);
        best = best.min(start.elapsed().as_nanos());
        sum = checksum(to);
    }
    println!("{label} {best} {sum:016x}");
}

// Times all operations at a level kind, on lists that are parts of one memory.
fn time_kind<L: Level>(kind: &str, task: Task, level: impl Fn(u32) -> L) {
    let Task { turns, side, gap } = task;
    let cells = side * side;
    let mut random = Random { state: 1 };
    let mut memory: Vec<L> = (0..cells).map(|_| level(random.next())).collect();
    let other: Vec<L> = (0..cells).map(|_| level(random.next())).collect();
    memory.resize(cells + gap + cells, L::default());
    let (source, to) = memory.split_at_mut(cells + gap);
    let from = &source[..cells];
    for (name, op) in [("erosion", Operation::Erosion), ("dilation", Operation::Dilation)] {
        time(&format!("{kind} {name} passes"), turns, to, |to| by_passes(op, from, to, side, side));
        time(&format!("{kind} {name} cells"), turns, to, |to| by_cells(op, from, to, side, side));
    }
    for (name, op) in [("meet", Operation::Erosion), ("join", Operation::Dilation)] {
        time(&format!("{kind} {name} passes"), turns, to, |to| combine(op, false, from, &other, to));
        time(&format!("{kind} {name} cells"), turns, to, |to| combine(op, true, from, &other, to));
    }
}

// Repeats a call in the memory of a rack, and prints its best time in nanoseconds and a checksum of what it made and told.
fn time_call<L: Level>(label: &str, turns: usize, side: usize, memory: &mut [L], run: impl Fn(&mut [L], usize, usize) -> u64) {
    let mut best = u128::MAX;
    let mut sum = 0;
    for _ in 0..turns {
        let start = Instant::now();
        let told = run(memory, side, side);
        best = best.min(start.elapsed().as_nanos());
        sum = checksum(&memory[2 * side * side..3 * side * side]).wrapping_add(told);
    }
    println!("{label} passes {best} {sum:016x}");
}

// Times the opening and the skeleton of a random sheet, and fewer times its spectrum and a reconstruction that fills a sheet from one
// corner: its upper sheet is all highest, and its marker at the first cell alone.
fn time_calls(task: Task) {
    let Task { turns, side, .. } = task;
    let cells = side * side;
    let mut random = Random { state: 1 };
    let mut memory: Vec<u8> = (0..cells).map(|_| (random.next() >> 24) as u8).collect();
    memory.resize(5 * cells, 0);
    let few = turns / 10 + 1;
    time_call("gray opening", turns, side, &mut memory, open);
    let mut entries = [0; 2 * DEPTH + 1];
    time("gray spectrum passes", few, &mut entries, |list| spectrum(&mut memory, side, side, list));
    let mut pieces = vec![0; (DEPTH + 1) * cells];
    time("gray skeleton passes", turns, &mut pieces, |list| skeleton(&mut memory, side, side, list));
    memory[..cells].fill(0);
    memory[0] = 255;
    memory[cells..2 * cells].fill(255);
    time_call("gray regrow", few, side, &mut memory, regrow);
}

fn main() {
    let mut numbers = std::env::args().skip(1).map(|word| word.parse().unwrap_or(0));
    let mut number = || numbers.next().unwrap_or(0);
    let task = Task { turns: number(), side: number(), gap: number() };
    time_kind("gray", task, |x| (x >> 24) as u8);
    time_kind("heat", task, |x| i32::from((x >> 16) as i16) + 32_769);
    time_kind("mask", task, |x| (x >> 31) as u8);
    if task.gap == 0 {
        time_calls(task);
    }
}
