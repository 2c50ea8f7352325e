//! Rounds, by going through all of them.

use super::graph::{Graph, EXCLUDED, REQUIRED};

/// A tour: its edges, one byte each, and "the sum of its legs' costs".
#[derive(Clone, PartialEq, Eq, Debug)]
pub struct Tour {
    pub edges: Vec<u8>,
    pub cost: i64,
}

pub fn cost(graph: &Graph, edges: &[u8]) -> i64 {
    let chosen = (0..graph.m).filter(|k| edges[*k] == 1);
    chosen.map(|k| graph.cost[k] as i64).sum()
}

/// "A round is n legs that form one closed trip through all n buoys." Of document 02's C-20: "A round now visits every buoy that is afloat."
pub fn is_tour(graph: &Graph, edges: &[u8]) -> bool {
    let mut beside: Vec<Vec<usize>> = vec![Vec::new(); graph.n + 1];
    for k in (0..graph.m).filter(|k| edges[*k] == 1) {
        let (a, b) = (graph.a[k] as usize, graph.b[k] as usize);
        beside[a].push(b);
        beside[b].push(a);
    }
    let wanted = |vertex: usize| if graph.is_afloat(vertex) { 2 } else { 0 };
    if !graph.is_afloat(1) || (1..=graph.n).any(|vertex| beside[vertex].len() != wanted(vertex)) {
        return false;
    }
    let (mut before, mut at, mut steps) = (1, beside[1][0], 1);
    while at != 1 {
        let ahead = if beside[at][0] == before { 1 } else { 0 };
        (before, at) = (at, beside[at][ahead]);
        steps += 1;
    }
    steps == graph.afloat().count()
}

/// "It is allowed if it has every required leg and no struck one."
pub fn is_allowed(graph: &Graph, edges: &[u8]) -> bool {
    (0..graph.m).all(|k| match graph.mark[k] {
        REQUIRED => edges[k] == 1,
        EXCLUDED => edges[k] == 0,
        _ => true,
    })
}

/// Document 02, C-23: "Of allowed rounds of least cost .. the first: of two, the one that lacks the highest-numbered leg in which they
/// differ", which read from the last leg down has the smaller bytes.
pub fn first(graph: &Graph) -> Option<Tour> {
    let allowed = all(graph).into_iter();
    allowed
        .filter(|tour| is_allowed(graph, &tour.edges))
        .min_by_key(|tour| {
            let down: Vec<u8> = tour.edges.iter().rev().copied().collect();
            (tour.cost, down)
        })
}

/// Every tour of the vertices afloat, whatever the marks; each once.
pub fn all(graph: &Graph) -> Vec<Tour> {
    let mut number = vec![vec![None; graph.n + 1]; graph.n + 1];
    for k in 0..graph.m {
        let (a, b) = (graph.a[k] as usize, graph.b[k] as usize);
        number[a][b] = Some(k);
        number[b][a] = Some(k);
    }
    let mut tours = Vec::new();
    extend(graph, &number, &mut vec![1], &mut Vec::new(), &mut tours);
    tours
}

/// Goes on from the last vertex of `path`. A tour is met in both directions and taken in the one
/// whose second vertex is lower than its last.
fn extend(
    graph: &Graph,
    number: &[Vec<Option<usize>>],
    path: &mut Vec<usize>,
    taken: &mut Vec<usize>,
    tours: &mut Vec<Tour>,
) {
    let last = path[path.len() - 1];
    if path.len() == graph.afloat().count() {
        if let (Some(k), true) = (number[last][1], path[1] < last) {
            let mut edges = vec![0; graph.m];
            taken.iter().for_each(|k| edges[*k] = 1);
            edges[k] = 1;
            tours.push(Tour {
                cost: cost(graph, &edges),
                edges,
            });
        }
        return;
    }
    for vertex in graph.afloat().skip(1) {
        let Some(k) = number[last][vertex] else {
            continue;
        };
        if !path.contains(&vertex) {
            path.push(vertex);
            taken.push(k);
            extend(graph, number, path, taken, tours);
            taken.pop();
            path.pop();
        }
    }
}
