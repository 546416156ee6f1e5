//! The floors as a picture: reads the list of crates, whose path is the argument, and writes SVG to standard output.
//!
//! A crate stands in a row of its floor. An arrow goes down from a crate to each that it names, unless a longer way says the same. Where an
//! arrow passes a row it has a lane there, a place between the boxes at which it goes straight down; arrows to the same crate share their
//! lanes. Between two rows there are only lines. So no arrow meets a box that is not its end, and `verify` looks at the finished picture
//! once more. All numbers are whole and no order is left to chance: the same list gives the same bytes everywhere.

use std::collections::{BTreeMap, BTreeSet};
use std::process::ExitCode;

/// The widest picture. A row that would not fit becomes two.
const WIDEST: i64 = 1400;
const MARGIN: i64 = 16;
/// The space beside the boxes, on the left and on the right.
const SIDE: i64 = 18;
/// The part with the heading and the legend.
const TOP: i64 = 64;
const BOX_HEIGHT: i64 = 26;
/// A letter of a crate's name, 13 px high in a font of fixed width, takes a little less than this.
const LETTER: i64 = 8;
/// Letters in a line of a floor's sentence, and the width that is kept for each.
const COLUMN_LETTERS: usize = 30;
const COLUMN_LETTER: i64 = 7;
const LANE_WIDTH: i64 = 2;
/// The height of an arrow's head.
const HEAD: i64 = 9;
/// The least space between two rows.
const SPACE: i64 = 31;
/// No arrow may come nearer than this to a box that is not its end.
const CLEAR: i64 = 2;
/// Crates of the toolchain, which may be named and are not drawn.
const TOOLCHAIN: [&str; 4] = ["io", "itoa", "libc", "os"];
const LEGEND: &str = "An arrow: relies on; arrows that follow from longer ways are left out. Lines that meet lead to the same crate.";
/// Colours of arrows, and the colours of a floor and of its title.
const COLOURS: [&str; 8] = ["#1f5fa8", "#b3261e", "#1b7a43", "#7a3fa0", "#a85500", "#00757d", "#b0177a", "#3d3d3d"];
const TINTS: [(&str, &str); 4] = [("#f4f7fb", "#e3ebf5"), ("#faf7f0", "#f1e9d8"), ("#f3f9f4", "#e0efe3"), ("#f9f4f8", "#efe2ec")];

type Answer<T> = Result<T, String>;

struct Floor {
    name: String,
    sentence: String,
}

struct Crate {
    name: String,
    floor: usize,
    /// The crates that it names, and after `reduce` those of them to which no longer way leads.
    names: Vec<usize>,
}

struct List {
    floors: Vec<Floor>,
    crates: Vec<Crate>,
}

// ---- the list ----

fn floor_of(name: &str) -> &str {
    name.split('_').next().unwrap_or(name)
}

fn read(text: &str) -> Answer<List> {
    let mut sentences: Vec<(&str, &str)> = Vec::new();
    let mut lines: Vec<(&str, Vec<&str>)> = Vec::new();
    for (at, line) in text.lines().enumerate() {
        let line = line.trim();
        if let Some(comment) = line.strip_prefix('#') {
            if let Some((word, sentence)) = comment.trim().split_once(':') {
                sentences.push((word, sentence.trim()));
            }
            continue;
        }
        if line.is_empty() {
            continue;
        }
        let Some((name, rest)) = line.split_once(':') else {
            return Err(format!("line {} has no colon: {line}", at + 1));
        };
        // A static library has that word behind its name.
        let name = name.trim();
        let name = name.strip_suffix(" staticlib").unwrap_or(name).trim_end();
        if name.is_empty() || name.contains(char::is_whitespace) {
            return Err(format!("line {} does not begin with one name: {line}", at + 1));
        }
        if lines.iter().any(|(other, _)| *other == name) {
            return Err(format!("the crate {name} is listed twice, the second time in line {}", at + 1));
        }
        if !sentences.iter().any(|(word, _)| *word == floor_of(name)) {
            return Err(format!("the crate {name} has no line '# {}: ..' above it, which says what its floor is", floor_of(name)));
        }
        lines.push((name, rest.split_whitespace().collect()));
    }
    if lines.is_empty() {
        return Err("there is no crate in the list".to_string());
    }

    // A comment that begins with a word and a colon is a floor's only if the floor has a crate.
    sentences.retain(|(word, _)| lines.iter().any(|(name, _)| floor_of(name) == *word));
    let place: BTreeMap<&str, usize> = sentences.iter().enumerate().map(|(at, (word, _))| (*word, at)).collect();
    if place.len() < sentences.len() {
        let twice: Vec<&str> =
            sentences.iter().enumerate().filter(|(at, (word, _))| place[word] != *at).map(|(_, (word, _))| *word).collect();
        return Err(format!("more than one line says what the floor {} is", twice[0]));
    }
    let number: BTreeMap<&str, usize> = lines.iter().enumerate().map(|(at, (name, _))| (*name, at)).collect();

    let mut crates = Vec::new();
    for (name, named) in &lines {
        let mut names = BTreeSet::new();
        for other in named {
            match number.get(other) {
                Some(at) => {
                    names.insert(*at);
                    if place[floor_of(other)] > place[floor_of(name)] {
                        return Err(format!("{name} names {other}, which stands on a higher floor"));
                    }
                }
                None if TOOLCHAIN.contains(other) => {}
                None => return Err(format!("{name} names {other}, which is not in the list")),
            }
        }
        crates.push(Crate { name: name.to_string(), floor: place[floor_of(name)], names: names.into_iter().collect() });
    }
    let floors = sentences.iter().map(|(word, sentence)| Floor { name: word.to_string(), sentence: sentence.to_string() }).collect();
    Ok(List { floors, crates })
}

/// The crates in an order in which each comes after those that it names.
fn sorted(crates: &[Crate]) -> Answer<Vec<usize>> {
    fn visit(crates: &[Crate], at: usize, way: &mut Vec<usize>, done: &mut Vec<usize>) -> Answer<()> {
        if done.contains(&at) {
            return Ok(());
        }
        if let Some(start) = way.iter().position(|on_it| *on_it == at) {
            let circle: Vec<&str> = way[start..].iter().chain([&at]).map(|on_it| crates[*on_it].name.as_str()).collect();
            return Err(format!("the crates name each other in a circle: {}", circle.join(" -> ")));
        }
        way.push(at);
        for below in &crates[at].names {
            visit(crates, *below, way, done)?;
        }
        way.pop();
        done.push(at);
        Ok(())
    }
    let mut done = Vec::new();
    for at in 0..crates.len() {
        visit(crates, at, &mut Vec::new(), &mut done)?;
    }
    Ok(done)
}

/// Leaves only those names to which no longer way leads.
fn reduce(crates: &mut [Crate], sorted: &[usize]) {
    let mut reached: Vec<BTreeSet<usize>> = vec![BTreeSet::new(); crates.len()];
    for &at in sorted {
        let names = std::mem::take(&mut crates[at].names);
        let further: BTreeSet<usize> = names.iter().flat_map(|below| reached[*below].iter().copied()).collect();
        crates[at].names = names.iter().copied().filter(|below| !further.contains(below)).collect();
        reached[at] = further.into_iter().chain(names).collect();
    }
}

// ---- rows ----

/// The row of each crate, counted from the bottom, and the floor of each row.
#[derive(Clone)]
struct Rows {
    of: Vec<usize>,
    floor: Vec<usize>,
}

fn box_width(name: &str) -> i64 {
    LETTER * name.chars().count() as i64 + 18
}

/// The space between two neighbours of a row.
fn apart(one_is_lane: bool, other_is_lane: bool) -> i64 {
    if one_is_lane || other_is_lane {
        14
    } else {
        22
    }
}

/// The highest row from which each crate is named.
fn tops(list: &List, rows: &Rows) -> Vec<usize> {
    let mut top = vec![0; list.crates.len()];
    for (at, one) in list.crates.iter().enumerate() {
        for below in &one.names {
            top[*below] = top[*below].max(rows.of[at]);
        }
    }
    top
}

/// What the boxes and lanes of each row need side by side.
fn needs(list: &List, rows: &Rows) -> Vec<i64> {
    let mut need = vec![0; rows.floor.len()];
    for (at, top) in tops(list, rows).into_iter().enumerate() {
        need[rows.of[at]] += box_width(&list.crates[at].name) + apart(false, false);
        let passed = need.iter_mut().take(top).skip(rows.of[at] + 1);
        passed.for_each(|row| *row += LANE_WIDTH + apart(true, false));
    }
    need
}

/// The rows of its floor in which a crate may stand: above those that it names and below those that name it.
fn allowed(list: &List, rows: &Rows, at: usize) -> (usize, usize) {
    let mine: Vec<usize> = (0..rows.floor.len()).filter(|row| rows.floor[*row] == list.crates[at].floor).collect();
    let mut ends = (mine[0], mine[mine.len() - 1]);
    for (other, one) in list.crates.iter().enumerate() {
        if list.crates[at].names.contains(&other) {
            ends.0 = ends.0.max(rows.of[other] + 1);
        }
        if one.names.contains(&at) {
            ends.1 = ends.1.min(rows.of[other] - 1);
        }
    }
    ends
}

/// Takes away rows in which no crate is left.
fn pack(rows: &mut Rows) {
    for row in (0..rows.floor.len()).rev() {
        if !rows.of.contains(&row) {
            rows.floor.remove(row);
            rows.of.iter_mut().filter(|of| **of > row).for_each(|of| *of -= 1);
        }
    }
}

/// Moves single crates up or down in their floor, as long as that makes lanes shorter or wide rows narrower.
fn shift(list: &List, rows: &mut Rows, widest: i64) {
    let cost = |rows: &Rows| -> i64 {
        needs(list, rows).iter().map(|need| need * need / 100 + 8 * need + 1_000_000 * (need - widest).max(0)).sum()
    };
    loop {
        let before = cost(rows);
        for at in 0..list.crates.len() {
            let (low, high) = allowed(list, rows, at);
            let mut best = (cost(rows), rows.of[at]);
            for row in low..=high {
                rows.of[at] = row;
                best = best.min((cost(rows), row));
            }
            rows.of[at] = best.1;
        }
        if cost(rows) >= before {
            return pack(rows);
        }
    }
}

/// A crate stands as low in its floor as those allow that it names, and is then shifted. A row that is too wide gives half of its boxes to a
/// new row above it: those first for which more arrows become shorter than longer.
fn rows(list: &List, sorted: &[usize], widest: i64) -> Rows {
    let crates = &list.crates;
    let mut level = vec![0; crates.len()];
    for &at in sorted {
        let below = crates[at].names.iter().filter(|below| crates[**below].floor == crates[at].floor);
        level[at] = below.map(|below| level[*below] + 1).max().unwrap_or(0);
    }
    let mut rows = Rows { of: vec![0; crates.len()], floor: Vec::new() };
    for floor in 0..list.floors.len() {
        let mine: Vec<usize> = (0..crates.len()).filter(|at| crates[*at].floor == floor).collect();
        mine.iter().for_each(|at| rows.of[*at] = rows.floor.len() + level[*at]);
        let count = mine.iter().map(|at| level[*at] + 1).max().unwrap_or(0);
        rows.floor.extend(vec![floor; count]);
    }
    shift(list, &mut rows, widest);

    for _ in 0..crates.len() {
        let need = needs(list, &rows);
        let boxes = |row: usize| (0..crates.len()).filter(|at| rows.of[*at] == row).collect::<Vec<usize>>();
        let Some(row) = (0..need.len()).find(|row| need[*row] > widest && boxes(*row).len() > 1) else {
            break;
        };
        let mut up = boxes(row);
        up.sort_by_key(|at| (crates[*at].names.len() as i64 - crates.iter().filter(|one| one.names.contains(at)).count() as i64, *at));
        up.truncate(up.len() / 2);
        for at in 0..crates.len() {
            if rows.of[at] > row || up.contains(&at) {
                rows.of[at] += 1;
            }
        }
        rows.floor.insert(row, rows.floor[row]);
        shift(list, &mut rows, widest);
    }
    rows
}

// ---- boxes, lanes and lines ----

/// A box, or a lane: the place at which the arrows to a crate pass a row.
struct Node {
    row: usize,
    /// The crate in the box, or the crate to which the lane leads.
    of: usize,
    lane: bool,
    width: i64,
}

/// A node with the number of a crate is the crate's box; lanes follow. A line goes from a node to one in the row below.
struct Graph {
    nodes: Vec<Node>,
    lines: Vec<(usize, usize)>,
    rows: usize,
    up: Vec<Vec<usize>>,
    down: Vec<Vec<usize>>,
}

fn graph(list: &List, rows: &Rows) -> Graph {
    let crates = &list.crates;
    let mut nodes: Vec<Node> = Vec::new();
    for (at, one) in crates.iter().enumerate() {
        nodes.push(Node { row: rows.of[at], of: at, lane: false, width: box_width(&one.name) });
    }
    let mut lines = Vec::new();
    for (at, top) in tops(list, rows).into_iter().enumerate() {
        let mut last = at;
        let mut way = vec![at];
        for row in rows.of[at] + 1..top {
            nodes.push(Node { row, of: at, lane: true, width: LANE_WIDTH });
            lines.push((nodes.len() - 1, last));
            last = nodes.len() - 1;
            way.push(last);
        }
        for (above, one) in crates.iter().enumerate() {
            if one.names.contains(&at) {
                lines.push((above, way[rows.of[above] - 1 - rows.of[at]]));
            }
        }
    }
    let mut up = vec![Vec::new(); nodes.len()];
    let mut down = vec![Vec::new(); nodes.len()];
    for (above, below) in &lines {
        up[*below].push(*above);
        down[*above].push(*below);
    }
    Graph { nodes, lines, rows: rows.floor.len(), up, down }
}

// ---- the order in each row ----

#[derive(Clone)]
struct Order {
    rows: Vec<Vec<usize>>,
    place: Vec<usize>,
}

impl Order {
    fn number(&mut self, row: usize) {
        for (place, node) in self.rows[row].iter().enumerate() {
            self.place[*node] = place;
        }
    }
}

/// Crossings of the lines of two neighbours, the first of which stands to the left.
fn crossings_of(graph: &Graph, order: &Order, left: usize, right: usize) -> i64 {
    let mut count = 0;
    for sides in [&graph.up, &graph.down] {
        for one in &sides[left] {
            for other in &sides[right] {
                count += i64::from(order.place[*one] > order.place[*other]);
            }
        }
    }
    count
}

/// How many places one line begins and ends to the right of another that passes from the same row to the next.
fn ahead(graph: &Graph, order: &Order, one: usize, other: usize) -> Option<(i64, i64)> {
    let ((above, below), (other_above, other_below)) = (graph.lines[one], graph.lines[other]);
    let place = |node: usize| order.place[node] as i64;
    let both = (place(above) - place(other_above), place(below) - place(other_below));
    (graph.nodes[above].row == graph.nodes[other_above].row).then_some(both)
}

fn crossings(graph: &Graph, order: &Order) -> i64 {
    let mut count = 0;
    for one in 0..graph.lines.len() {
        for other in 0..one {
            count += i64::from(ahead(graph, order, one, other).is_some_and(|(upper, lower)| upper * lower < 0));
        }
    }
    count
}

/// Sorts a row by the mean place of the neighbours in the row above or below. A node without such neighbours keeps its place.
fn barycentre(order: &mut Order, row: usize, sides: &[Vec<usize>]) {
    let mut keys: Vec<(i64, usize, usize)> = Vec::new();
    for (place, node) in order.rows[row].iter().enumerate() {
        let others = &sides[*node];
        let sum: i64 = others.iter().map(|other| order.place[*other] as i64).sum();
        let mean = if others.is_empty() { 1000 * place as i64 } else { 1000 * sum / others.len() as i64 };
        keys.push((mean, place, *node));
    }
    keys.sort();
    order.rows[row] = keys.into_iter().map(|(_, _, node)| node).collect();
    order.number(row);
}

/// Moves each node to the best place in its row, as long as crossings become fewer.
fn sift(graph: &Graph, order: &mut Order) {
    loop {
        let mut gained = 0;
        for row in 0..graph.rows {
            for node in order.rows[row].clone() {
                let from = order.place[node];
                let rest: Vec<usize> = order.rows[row].iter().copied().filter(|other| *other != node).collect();
                // The change in crossings at each place, counted from the leftmost.
                let mut change = vec![0];
                for other in &rest {
                    let passed = crossings_of(graph, order, *other, node) - crossings_of(graph, order, node, *other);
                    change.push(change[change.len() - 1] + passed);
                }
                let best = (0..change.len()).min_by_key(|place| (change[*place], place.abs_diff(from))).unwrap_or(from);
                if change[best] < change[from] {
                    gained += change[from] - change[best];
                    order.rows[row] = rest;
                    order.rows[row].insert(best, node);
                    order.number(row);
                }
            }
        }
        if gained == 0 {
            return;
        }
    }
}

/// The order with the fewest crossings from a few starts, and their number.
fn order(graph: &Graph, dice: &mut Dice) -> (i64, Order) {
    let mut best: Option<(i64, Order)> = None;
    let mut order = Order { rows: vec![Vec::new(); graph.rows], place: vec![0; graph.nodes.len()] };
    for (node, it) in graph.nodes.iter().enumerate() {
        order.rows[it.row].push(node);
    }
    for _ in 0..10 {
        for row in 0..graph.rows {
            for at in (1..order.rows[row].len()).rev() {
                order.rows[row].swap(at, dice.draw(at + 1));
            }
            order.number(row);
        }
        for _ in 0..6 {
            for row in 1..graph.rows {
                barycentre(&mut order, row, &graph.down);
            }
            for row in (0..graph.rows - 1).rev() {
                barycentre(&mut order, row, &graph.up);
            }
        }
        sift(graph, &mut order);
        let count = crossings(graph, &order);
        if best.as_ref().is_none_or(|(fewest, _)| count < *fewest) {
            best = Some((count, order.clone()));
        }
    }
    best.unwrap_or((0, order))
}

/// Numbers drawn by a fixed rule: the same ones each time.
struct Dice(u64);

impl Dice {
    fn draw(&mut self, below: usize) -> usize {
        self.0 ^= self.0 << 13;
        self.0 ^= self.0 >> 7;
        self.0 ^= self.0 << 17;
        ((self.0 >> 33) % below as u64) as usize
    }
}

// ---- places across ----

/// A line leaves a box at a place of its own, in the order of the places to which the lines go.
fn ports(graph: &Graph, order: &Order) -> Vec<i64> {
    let mut ports = Vec::new();
    for (above, below) in &graph.lines {
        let lines = graph.down[*above].len() as i64;
        let before = graph.down[*above].iter().filter(|other| order.place[**other] < order.place[*below]).count() as i64;
        let step = if lines > 1 { ((graph.nodes[*above].width - 20) / (lines - 1)).min(16) } else { 0 };
        ports.push((2 * before - (lines - 1)) * step / 2);
    }
    ports
}

/// A network of arcs with room for a flow. Arcs stand in pairs, each with its opposite.
struct Network {
    to: Vec<usize>,
    room: Vec<i64>,
    from: Vec<Vec<usize>>,
}

impl Network {
    fn arc(&mut self, from: usize, to: usize, room: i64) {
        for (one, other, room) in [(from, to, room), (to, from, 0)] {
            self.from[one].push(self.to.len());
            self.to.push(other);
            self.room.push(room);
        }
    }

    /// The greatest flow from the source to the sink, and the nodes on the source's side of the least cut.
    fn cut(&mut self, source: usize, sink: usize) -> (i64, Vec<bool>) {
        let mut flow = 0;
        loop {
            let mut came_by = vec![None; self.from.len()];
            let mut reached = vec![source];
            let mut at = 0;
            while at < reached.len() {
                for arc in &self.from[reached[at]] {
                    let to = self.to[*arc];
                    if self.room[*arc] > 0 && to != source && came_by[to].is_none() {
                        came_by[to] = Some(*arc);
                        reached.push(to);
                    }
                }
                at += 1;
            }
            if came_by[sink].is_none() {
                return (flow, (0..self.from.len()).map(|node| node == source || came_by[node].is_some()).collect());
            }
            let mut way = Vec::new();
            let mut node = sink;
            while let Some(arc) = came_by[node] {
                way.push(arc);
                node = self.to[arc ^ 1];
            }
            let most = way.iter().map(|arc| self.room[*arc]).min().unwrap_or(0);
            for arc in way {
                self.room[arc] -= most;
                self.room[arc ^ 1] += most;
            }
            flow += most;
        }
    }
}

struct Places {
    /// The middle of each node, from the left end of the part with boxes, and the width of that part.
    x: Vec<i64>,
    width: i64,
    cost: i64,
}

/// How far a line goes sideways counts: most for lanes, which should go straight down, and more for an arrow that is its crate's only one. The
/// square breaks ties, so that a box stands in the middle of its neighbours where nothing else decides.
fn bend(graph: &Graph, line: usize, sideways: i64) -> i64 {
    let (above, below) = graph.lines[line];
    let weight = match (graph.nodes[above].lane, graph.nodes[below].lane) {
        (true, true) => 80,
        (false, false) => 30,
        _ => 20,
    };
    let only = i64::from(graph.down[above].len() == 1) * 2 + i64::from(graph.up[below].len() == 1);
    2000 * (weight + only) * sideways.abs() + sideways * sideways
}

/// The places with the least sum of bends. As the sum is convex, it is least when no set of nodes can move together, to the left or to the
/// right, and lower it; the set that lowers it most is a least cut. Large steps come first, to be quick.
fn places(graph: &Graph, order: &Order, widest: i64) -> Places {
    // More than all bends together, and what a pixel of the picture's width counts.
    const WALL: i64 = 1 << 40;
    const WIDTH: i64 = 280_000;
    let nodes = graph.nodes.len();
    let ports = ports(graph, order);
    let half = |node: usize| graph.nodes[node].width / 2;
    // The least distances between neighbours. The last node stands for the right end.
    let mut spaces: Vec<(usize, usize, i64)> = Vec::new();
    let mut x = vec![0; nodes + 1];
    for row in &order.rows {
        let mut left = 0;
        for (at, node) in row.iter().enumerate() {
            if at > 0 {
                let last = row[at - 1];
                let space = half(last) + half(*node) + apart(graph.nodes[last].lane, graph.nodes[*node].lane);
                spaces.push((last, *node, space));
                left += space;
            } else {
                left = half(*node);
            }
            x[*node] = left;
        }
        if let Some(last) = row.last() {
            spaces.push((*last, nodes, half(*last)));
            x[nodes] = x[nodes].max(x[*last] + half(*last));
        }
    }
    let widest = widest.max(x[nodes]);

    let mut step = 256;
    while step > 0 {
        let mut moved = false;
        for way in [step, -step] {
            let (source, sink) = (nodes + 1, nodes + 2);
            let mut network = Network { to: Vec::new(), room: Vec::new(), from: vec![Vec::new(); nodes + 3] };
            let mut own = vec![0; nodes + 1];
            own[nodes] = WIDTH * way;
            for (line, (above, below)) in graph.lines.iter().enumerate() {
                let now = x[*above] + ports[line] - x[*below];
                let if_above = bend(graph, line, now + way) - bend(graph, line, now);
                let if_below = bend(graph, line, now - way) - bend(graph, line, now);
                own[*above] += if_above;
                own[*below] -= if_above;
                network.arc(*below, *above, if_above + if_below);
            }
            for (left, right, space) in &spaces {
                if x[*right] - x[*left] - step < *space {
                    let (first, second) = if way > 0 { (*left, *right) } else { (*right, *left) };
                    network.arc(first, second, WALL);
                }
            }
            let mut gain = 0;
            for node in 0..=nodes {
                let stuck = if node == nodes { x[node] + way > widest } else { x[node] + way < half(node) };
                if stuck {
                    network.arc(node, sink, WALL);
                }
                if own[node] > 0 {
                    network.arc(node, sink, own[node]);
                } else {
                    network.arc(source, node, -own[node]);
                    gain -= own[node];
                }
            }
            let (flow, with) = network.cut(source, sink);
            if flow < gain {
                moved = true;
                for node in (0..=nodes).filter(|node| with[*node]) {
                    x[node] += way;
                }
            }
        }
        if !moved {
            step /= 2;
        }
    }
    let cost = straighten(graph, &ports, &spaces, &mut x) + WIDTH * x[nodes];
    let width = x.pop().unwrap_or(0);
    Places { x, width, cost }
}

/// Two small bends are worse than one, which no convex sum can say. So each line that is not straight is made so, by moving what hangs on one
/// of its ends by straight lines, where there is room and the bends become better.
fn straighten(graph: &Graph, ports: &[i64], spaces: &[(usize, usize, i64)], x: &mut [i64]) -> i64 {
    // What a line counts that is not straight, beside how far it goes.
    const BENT: i64 = 500_000;
    let sideways = |x: &[i64], line: usize| x[graph.lines[line].0] + ports[line] - x[graph.lines[line].1];
    let cost = |x: &[i64]| -> i64 {
        let one = |line: usize| (sideways(x, line), bend(graph, line, sideways(x, line)));
        (0..graph.lines.len()).map(one).map(|(sideways, bend)| bend + BENT * i64::from(sideways != 0)).sum()
    };
    let mut least = cost(x);
    loop {
        let before = least;
        for line in 0..graph.lines.len() {
            if sideways(x, line) == 0 {
                continue;
            }
            let (above, below) = graph.lines[line];
            for (end, lanes_only) in [(above, true), (below, true), (above, false), (below, false)] {
                let way = sideways(x, line) * if end == above { -1 } else { 1 };
                let mut with = vec![end];
                let mut at = 0;
                while at < with.len() {
                    for (other, (one, two)) in graph.lines.iter().enumerate() {
                        if sideways(x, other) != 0 || (*one != with[at] && *two != with[at]) {
                            continue;
                        }
                        for next in [*one, *two] {
                            if !with.contains(&next) && (graph.nodes[next].lane || !lanes_only) {
                                with.push(next);
                            }
                        }
                    }
                    at += 1;
                }
                let mut moved = x.to_vec();
                with.iter().for_each(|node| moved[*node] += way);
                let room = spaces.iter().all(|(left, right, space)| moved[*right] - moved[*left] >= *space);
                let inside = with.iter().all(|node| moved[*node] >= graph.nodes[*node].width / 2);
                if room && inside && cost(&moved) < least {
                    least = cost(&moved);
                    x.copy_from_slice(&moved);
                }
            }
        }
        if least == before {
            return least;
        }
    }
}

// ---- the search ----

/// A row for each crate, and an order in each row.
struct Drawing {
    rows: Rows,
    graph: Graph,
    order: Order,
    crossings: i64,
}

/// Moves a few crates to other rows of their floors, again and again, and keeps what has no more crossings than before. Of the drawings with the
/// fewest crossings it takes the one whose lines bend least.
fn search(list: &List, sorted: &[usize], widest: i64) -> Answer<(Drawing, Places)> {
    let mut dice = Dice(0x2545_F491_4F6C_DD1D);
    let mut kept = rows(list, sorted, widest);
    let widest = needs(list, &kept).into_iter().fold(widest, i64::max);
    let mut fewest = i64::MAX;
    let mut found: Vec<Drawing> = Vec::new();
    for round in 0..200 {
        let mut rows = kept.clone();
        for _ in 0..if round == 0 { 0 } else { 1 + dice.draw(10) } {
            let at = dice.draw(list.crates.len());
            let (low, high) = allowed(list, &rows, at);
            rows.of[at] = low + dice.draw(high - low + 1);
        }
        pack(&mut rows);
        if needs(list, &rows).into_iter().any(|need| need > widest) {
            continue;
        }
        let graph = graph(list, &rows);
        let (crossings, order) = order(&graph, &mut dice);
        if crossings <= fewest {
            fewest = crossings;
            kept = rows.clone();
        }
        found.push(Drawing { rows, graph, order, crossings });
    }
    found.sort_by_key(|drawing| (drawing.crossings, drawing.graph.nodes.len()));
    let costs = found.into_iter().take(20).map(|drawing| {
        let places = places(&drawing.graph, &drawing.order, widest);
        (places.cost + 20_000_000 * drawing.crossings + 400_000 * drawing.graph.nodes.len() as i64, drawing, places)
    });
    let best = costs.min_by_key(|(cost, _, _)| *cost).map(|(_, drawing, places)| (drawing, places));
    best.ok_or("no drawing was found".to_string())
}

// ---- the picture ----

struct Frame {
    left: i64,
    top: i64,
    right: i64,
    bottom: i64,
}

/// A line goes straight down from `(x, from)` to `bend`, which is further down only if it passes a row, and on to `(to_x, to)` in a curve.
struct Line {
    x: i64,
    from: i64,
    bend: i64,
    to_x: i64,
    to: i64,
}

struct Picture {
    width: i64,
    height: i64,
    /// The right end of the column with the titles of floors, and their lines.
    column: i64,
    titles: Vec<Vec<String>>,
    /// The upper and the lower end of each floor.
    bands: Vec<(i64, i64)>,
    boxes: Vec<Frame>,
    lines: Vec<Line>,
}

/// Letters in a line of a sentence: more than usual only if a word has more.
fn column_letters(list: &List) -> usize {
    let words = list.floors.iter().flat_map(|floor| floor.sentence.split_whitespace()).map(|word| word.chars().count());
    let names = list.floors.iter().map(|floor| floor.name.chars().count() * 3 / 2);
    words.chain(names).fold(COLUMN_LETTERS, usize::max)
}

fn column(list: &List) -> i64 {
    MARGIN + 24 + COLUMN_LETTER * column_letters(list) as i64
}

fn wrapped(sentence: &str, letters: usize) -> Vec<String> {
    let mut lines: Vec<String> = Vec::new();
    for word in sentence.split_whitespace() {
        match lines.last_mut() {
            Some(line) if line.chars().count() + 1 + word.chars().count() <= letters => {
                line.push(' ');
                line.push_str(word);
            }
            _ => lines.push(word.to_string()),
        }
    }
    lines
}

fn picture(list: &List, drawing: &Drawing, places: &Places) -> Picture {
    let Drawing { rows, graph, order, .. } = drawing;
    let column = column(list);
    let x = |node: usize| column + SIDE + places.x[node];
    let ports = ports(graph, order);
    let titles: Vec<Vec<String>> = list.floors.iter().map(|floor| wrapped(&floor.sentence, column_letters(list))).collect();

    // The space below each row is larger where a line goes far sideways, and where the floor ends.
    let mut space = vec![SPACE; graph.rows];
    for (line, (above, below)) in graph.lines.iter().enumerate() {
        let row = graph.nodes[*above].row;
        let sideways = (x(*above) + ports[line] - x(*below)).abs();
        space[row] = space[row].max(SPACE + (sideways / 10).min(22));
    }
    let mut y = vec![0; graph.rows];
    let mut bands = vec![(0, 0); list.floors.len()];
    let mut down = TOP;
    for floor in (0..list.floors.len()).rev() {
        let mine: Vec<usize> = (0..graph.rows).rev().filter(|row| rows.floor[*row] == floor).collect();
        let (first, last) = (mine[0], mine[mine.len() - 1]);
        let above = space.get(first + 1).map_or(SIDE, |space| space / 2 + 4);
        let below = if last > 0 { space[last] / 2 + 4 } else { SIDE };
        let inner: i64 = mine.iter().map(|row| BOX_HEIGHT + space[*row]).sum::<i64>() - space[last];
        let title = 42 + 16 * titles[floor].len() as i64;
        let more = (title - above - inner - below).max(0);
        let top = down;
        down += above + more / 2;
        for row in mine {
            y[row] = down;
            down += BOX_HEIGHT + space[row];
        }
        down += below + more - more / 2 - space[last];
        bands[floor] = (top, down);
    }

    let frame = |at: usize| {
        let (half, top) = (graph.nodes[at].width / 2, y[graph.nodes[at].row]);
        Frame { left: x(at) - half, top, right: x(at) + half, bottom: top + BOX_HEIGHT }
    };
    let line = |line: usize| {
        let (above, below) = graph.lines[line];
        let row = y[graph.nodes[above].row];
        let bend = row + BOX_HEIGHT;
        let from = if graph.nodes[above].lane { row } else { bend };
        let to = y[graph.nodes[below].row] - if graph.nodes[below].lane { 0 } else { HEAD };
        Line { x: x(above) + ports[line], from, bend, to_x: x(below), to }
    };
    Picture {
        width: (column + SIDE + places.width + SIDE).max(MARGIN + COLUMN_LETTER * LEGEND.len() as i64) + MARGIN,
        height: down + MARGIN,
        column,
        titles,
        bands,
        boxes: (0..list.crates.len()).map(frame).collect(),
        lines: (0..graph.lines.len()).map(line).collect(),
    }
}

// ---- a last look ----

/// Parts into which a curve is cut, and how much finer than pixels the points between them are counted, so that they are whole numbers.
const PARTS: i64 = 64;
const UNIT: i64 = PARTS * PARTS * PARTS;

fn points(line: &Line) -> Vec<(i64, i64)> {
    let middle = (line.bend + line.to) / 2;
    let mut points = vec![(line.x * UNIT, line.from * UNIT)];
    for near in 0..=PARTS {
        let far = PARTS - near;
        let weights = [far * far * far, 3 * far * far * near, 3 * far * near * near, near * near * near];
        let along = |four: [i64; 4]| (0..4).map(|at| weights[at] * four[at]).sum::<i64>();
        points.push((along([line.x, line.x, line.to_x, line.to_x]), along([line.bend, middle, middle, line.to])));
    }
    points
}

/// A straight line meets a frame if neither the frame's sides nor the line itself keep them apart.
fn meets(from: (i64, i64), to: (i64, i64), frame: &Frame) -> bool {
    let (left, right) = ((frame.left - CLEAR) * UNIT, (frame.right + CLEAR) * UNIT);
    let (top, bottom) = ((frame.top - CLEAR) * UNIT, (frame.bottom + CLEAR) * UNIT);
    if from.0.max(to.0) < left || from.0.min(to.0) > right || from.1.max(to.1) < top || from.1.min(to.1) > bottom {
        return false;
    }
    let side = |x: i64, y: i64| ((to.0 - from.0) * (y - from.1) - (to.1 - from.1) * (x - from.0)).signum();
    let sides = [side(left, top), side(right, top), side(left, bottom), side(right, bottom)];
    sides.iter().any(|side| *side >= 0) && sides.iter().any(|side| *side <= 0)
}

fn verify(list: &List, graph: &Graph, picture: &Picture) -> Answer<()> {
    let name = |at: usize| &list.crates[at].name;
    for (at, one) in picture.boxes.iter().enumerate() {
        let (top, bottom) = picture.bands[list.crates[at].floor];
        if one.top < top || one.bottom > bottom || one.left < picture.column || one.right > picture.width {
            return Err(format!("the box of {} stands outside its floor", name(at)));
        }
        for (other, two) in picture.boxes.iter().enumerate().skip(at + 1) {
            if one.left <= two.right && two.left <= one.right && one.top <= two.bottom && two.top <= one.bottom {
                return Err(format!("the boxes of {} and {} overlap", name(at), name(other)));
            }
        }
    }
    for (line, (above, below)) in graph.lines.iter().enumerate() {
        let to = graph.nodes[*below].of;
        let points = points(&picture.lines[line]);
        for pair in points.windows(2) {
            if pair[0].0.min(pair[1].0) < (picture.column + CLEAR) * UNIT {
                return Err(format!("an arrow to {} passes through the titles", name(to)));
            }
            for (at, frame) in picture.boxes.iter().enumerate() {
                if at != *above && at != *below && meets(pair[0], pair[1], frame) {
                    return Err(format!("an arrow to {} passes through {}", name(to), name(at)));
                }
            }
        }
    }
    // The lines of each crate, followed down to their ends, are the arrows that the list asks for.
    for (at, one) in list.crates.iter().enumerate() {
        let mut ends = Vec::new();
        for line in (0..graph.lines.len()).filter(|line| graph.lines[*line].0 == at) {
            let mut line = line;
            while let Some(next) = graph.lines.iter().position(|(above, _)| graph.nodes[*above].lane && *above == graph.lines[line].1) {
                let (one, two) = (&picture.lines[line], &picture.lines[next]);
                if (one.to_x, one.to) != (two.x, two.from) {
                    return Err(format!("an arrow from {} is broken", name(at)));
                }
                line = next;
            }
            ends.push(graph.lines[line].1);
        }
        ends.sort();
        if ends != one.names {
            return Err(format!("the arrows from {} are not those of the list", name(at)));
        }
    }
    Ok(())
}

// ---- colours and text ----

/// A colour for the arrows to each crate: not that of arrows with which they could be confused, as they start at the same crate, cross them or
/// run beside them.
fn colours(list: &List, drawing: &Drawing) -> Vec<&'static str> {
    let Drawing { graph, order, .. } = drawing;
    let count = list.crates.len();
    let mut alike = vec![vec![0; count]; count];
    let mut confused = |one: usize, other: usize, weight: i64| {
        alike[one][other] += weight;
        alike[other][one] += weight;
    };
    for one in &list.crates {
        for (at, first) in one.names.iter().enumerate() {
            one.names[at + 1..].iter().for_each(|second| confused(*first, *second, 1000));
        }
    }
    let to = |line: usize| graph.nodes[graph.lines[line].1].of;
    for one in 0..graph.lines.len() {
        for other in 0..one {
            if let Some((upper, lower)) = ahead(graph, order, one, other) {
                let weight = if upper * lower < 0 { 100 } else { i64::from(upper.abs() <= 1 || lower.abs() <= 1) * 10 };
                confused(to(one), to(other), weight);
            }
        }
    }
    let mut colours: Vec<usize> = Vec::new();
    for alike in alike {
        let against = |which: usize| -> i64 {
            let same = (0..colours.len()).filter(|other| colours[*other] == which && !graph.up[*other].is_empty());
            same.map(|other| 1 + alike[other]).sum()
        };
        colours.push((0..COLOURS.len()).min_by_key(|which| against(*which)).unwrap_or(0));
    }
    colours.into_iter().map(|which| COLOURS[which]).collect()
}

fn escaped(text: &str) -> String {
    text.replace('&', "&amp;").replace('<', "&lt;").replace('>', "&gt;")
}

/// All lines to one crate.
fn path(graph: &Graph, picture: &Picture, to: usize) -> String {
    let mut path = String::new();
    for (line, (_, below)) in graph.lines.iter().enumerate() {
        if graph.nodes[*below].of == to {
            let Line { x, from, bend, to_x, to } = picture.lines[line];
            let middle = (bend + to) / 2;
            path += &format!("M{x} {from}");
            path += &if x == to_x { format!("V{to}") } else { format!("V{bend}C{x} {middle} {to_x} {middle} {to_x} {to}") };
        }
    }
    path
}

fn svg(list: &List, drawing: &Drawing, picture: &Picture) -> String {
    let graph = &drawing.graph;
    let (width, height, text) = (picture.width, picture.height, MARGIN + 10);
    let floors: Vec<&str> = list.floors.iter().rev().map(|floor| floor.name.as_str()).collect();
    let mut out: Vec<String> = Vec::new();
    out.push(format!(
        r#"<svg xmlns="http://www.w3.org/2000/svg" viewBox="0 0 {width} {height}" width="{width}" height="{height}" role="img" aria-labelledby="title desc">"#
    ));
    out.push("<!-- Made from crates.txt by docs/floors. -->".to_string());
    out.push(r#"<title id="title">Floors and crates</title>"#.to_string());
    out.push(format!(
        r#"<desc id="desc">{} crates on {} floors, from the highest to the lowest: {}. {} arrows, each down from a crate to one that it relies on.</desc>"#,
        list.crates.len(),
        floors.len(),
        escaped(&floors.join(", ")),
        list.crates.iter().map(|one| one.names.len()).sum::<usize>(),
    ));
    out.push(format!(r##"<rect width="{width}" height="{height}" fill="#fff"/>"##));

    out.push(r##"<g font-family="Helvetica Neue, Arial, sans-serif" font-size="12.5" fill="#333">"##.to_string());
    let heading = |x: i64, y: i64, words: &str| {
        format!(r##"<text x="{x}" y="{y}" font-size="16" font-weight="bold" fill="#111">{}</text>"##, escaped(words))
    };
    out.push(heading(MARGIN, 28, "Floors and crates"));
    out.push(format!(r#"<text x="{MARGIN}" y="49">{LEGEND}</text>"#));
    for (at, floor) in list.floors.iter().enumerate().rev() {
        let (top, bottom) = picture.bands[at];
        let (light, dark) = TINTS[at % TINTS.len()];
        for (right, tint) in [(width - MARGIN, light), (picture.column, dark)] {
            out.push(format!(r#"<rect x="{MARGIN}" y="{top}" width="{}" height="{}" fill="{tint}"/>"#, right - MARGIN, bottom - top));
        }
        out.push(heading(text, top + 24, &floor.name));
        for (line, words) in picture.titles[at].iter().enumerate() {
            out.push(format!(r#"<text x="{text}" y="{}">{}</text>"#, top + 44 + 16 * line as i64, escaped(words)));
        }
    }
    out.push("</g>".to_string());

    // A pale seam under the lines to a crate shows which line passes over the other where they cross.
    out.push(r#"<g fill="none" stroke-width="1.6">"#.to_string());
    for (at, colour) in colours(list, drawing).into_iter().enumerate().filter(|(at, _)| !graph.up[*at].is_empty()) {
        let path = path(graph, picture, at);
        let (x, y) = (picture.boxes[at].left + graph.nodes[at].width / 2, picture.boxes[at].top);
        out.push(format!(r##"<path stroke="#fff" stroke-width="4.6" d="{path}"/>"##));
        out.push(format!(r#"<path stroke="{colour}" d="{path}"/>"#));
        out.push(format!(r#"<path fill="{colour}" d="M{} {}h10L{x} {y}z"/>"#, x - 5, y - HEAD - 1));
    }
    out.push("</g>".to_string());

    out.push(
        r##"<g font-family="Menlo, Consolas, DejaVu Sans Mono, monospace" font-size="13" text-anchor="middle" fill="#111">"##.to_string(),
    );
    for (at, one) in list.crates.iter().enumerate() {
        let Frame { left, top, right, bottom } = picture.boxes[at];
        let (width, height) = (right - left, bottom - top);
        out.push(format!(
            r##"<rect x="{left}" y="{top}" width="{width}" height="{height}" rx="4" fill="#fff" stroke="#333" stroke-width="1.2"/>"##
        ));
        out.push(format!(r#"<text x="{}" y="{}">{}</text>"#, left + width / 2, top + 17, escaped(&one.name)));
    }
    out.push("</g>".to_string());
    out.push("</svg>\n".to_string());
    out.join("\n")
}

fn made(file: &str) -> Answer<String> {
    let text = std::fs::read_to_string(file).map_err(|error| format!("cannot read {file}: {error}"))?;
    let mut list = read(&text)?;
    let sorted = sorted(&list.crates)?;
    reduce(&mut list.crates, &sorted);
    let widest = WIDEST - column(&list) - 2 * SIDE - MARGIN;
    let (drawing, places) = search(&list, &sorted, widest)?;
    let picture = picture(&list, &drawing, &places);
    verify(&list, &drawing.graph, &picture)?;
    Ok(svg(&list, &drawing, &picture))
}

fn main() -> ExitCode {
    let arguments: Vec<String> = std::env::args().skip(1).collect();
    let [file] = &arguments[..] else {
        eprintln!("floors: one argument is needed, the list of crates");
        return ExitCode::from(2);
    };
    match made(file) {
        Ok(svg) => {
            print!("{svg}");
            ExitCode::SUCCESS
        }
        Err(error) => {
            eprintln!("floors: {error}");
            ExitCode::from(1)
        }
    }
}
