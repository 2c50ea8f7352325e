//! 'The chart as bytes', and the refusals 1 to 11 and 15 of reading and writing.

use super::graph::{cost_fits, ends_fit, fits, same_pair, Edge, Graph, PLACES};
use super::law::Law;
use super::{refuse, Refusal};

fn word(bytes: &[u8], at: usize) -> usize {
    u16::from_le_bytes([bytes[at], bytes[at + 1]]) as usize
}

/// A record as it stands in the file.
struct Record {
    edge: Edge,
    zeros: [u8; 3],
    next: usize,
}

/// Record `number`, counted from 1.
fn record(bytes: &[u8], number: usize) -> Record {
    let at = 8 + 12 * (number - 1);
    let cost = [bytes[at + 4], bytes[at + 5], bytes[at + 6], bytes[at + 7]];
    Record {
        edge: Edge {
            a: bytes[at],
            b: bytes[at + 1],
            cost: i32::from_le_bytes(cost),
            mark: bytes[at + 2],
        },
        zeros: [bytes[at + 3], bytes[at + 10], bytes[at + 11]],
        next: word(bytes, at + 8),
    }
}

/// The refusals 1 to 4; otherwise n, head and r.
fn header(law: &Law, bytes: &[u8]) -> Result<(usize, usize, usize), Refusal> {
    if bytes.len() < 8 {
        return refuse(1, 0);
    }
    let n = bytes[0] as usize;
    if n < 3 || n > law.max_vertices {
        return refuse(2, 0);
    }
    let zeros = bytes[1] == 0 && bytes[6] == 0 && bytes[7] == 0;
    if law.zero_bytes_before_length && !zeros {
        return refuse(3, 0);
    }
    let r = word(bytes, 4);
    if r > law.max_records || bytes.len() != 8 + 12 * r {
        return refuse(4, 0);
    }
    if !zeros {
        return refuse(3, 0);
    }
    Ok((n, word(bytes, 2), r))
}

/// The refusals 7 to 10 of one record, given the earlier ones of the chain.
fn judge(
    law: &Law,
    n: usize,
    number: usize,
    record: &Record,
    earlier: &[(usize, Edge)],
) -> Result<(), Refusal> {
    let edge = &record.edge;
    if !ends_fit(law, n, edge.a, edge.b) {
        return refuse(7, number);
    }
    if edge.mark > law.max_mark || record.zeros != [0, 0, 0] {
        return refuse(8, number);
    }
    if law.cost_before_pair && !cost_fits(law, edge.cost) {
        return refuse(9, number);
    }
    if let Some((first, _)) = earlier.iter().find(|(_, other)| same_pair(other, edge)) {
        return refuse(10, if law.later_pair_named { number } else { *first });
    }
    if !cost_fits(law, edge.cost) {
        return refuse(9, number);
    }
    Ok(())
}

/// The read call. Places past m are zero.
pub fn read(law: &Law, bytes: &[u8]) -> Result<Graph, Refusal> {
    let (n, head, r) = header(law, bytes)?;
    let mut met = vec![false; r + 1];
    let mut chain: Vec<(usize, Edge)> = Vec::new();
    let mut number = head;
    while number != 0 {
        if number > r {
            return refuse(5, number);
        }
        if met[number] {
            return refuse(6, number);
        }
        met[number] = true;
        let record = record(bytes, number);
        if !law.next_judged_last && record.next > r {
            return refuse(5, record.next);
        }
        judge(law, n, number, &record, &chain)?;
        chain.push((number, record.edge));
        number = record.next;
    }
    let edges: Vec<Edge> = chain.iter().map(|(_, edge)| *edge).collect();
    let mut graph = Graph::from_edges(n, &edges);
    if !law.zeros_past_m && graph.m < PLACES {
        graph.mark[graph.m] = 1;
    }
    Ok(graph)
}

/// The write call on a list of `length` bytes: what it then holds.
pub fn write(law: &Law, graph: &Graph, length: usize) -> Result<Vec<u8>, Refusal> {
    let value = fits(law, graph);
    if law.value_before_length && !value {
        return refuse(15, 0);
    }
    if graph.m > PLACES || length != 8 + 12 * graph.m {
        return refuse(11, 0);
    }
    if !value {
        return refuse(15, 0);
    }
    let m = graph.m;
    let mut bytes = vec![graph.n as u8, 0, (m > 0) as u8, 0, m as u8, 0, 0, 0];
    for (k, edge) in graph.edges().iter().enumerate() {
        let number = k + 1;
        let last = number == m && law.last_next_zero;
        let next = if last { 0 } else { number as u16 + 1 };
        bytes.extend([edge.a, edge.b, edge.mark, 0]);
        bytes.extend(edge.cost.to_le_bytes());
        bytes.extend(next.to_le_bytes());
        bytes.extend([0, 0]);
    }
    Ok(bytes)
}

/// "The writer's form", told from the bytes alone, without reading or writing.
pub fn has_writers_form(law: &Law, bytes: &[u8]) -> bool {
    if bytes.len() < 8 {
        return false;
    }
    let (n, count) = (bytes[0] as usize, word(bytes, 4));
    let zeros = bytes[1] == 0 && bytes[6] == 0 && bytes[7] == 0;
    if !(3..=20).contains(&n) || !zeros || count > 1000 || bytes.len() != 8 + 12 * count {
        return false;
    }
    let head = word(bytes, 2) == if count == 0 { 0 } else { 1 };
    let records: Vec<Record> = (1..=count).map(|number| record(bytes, number)).collect();
    let chained = (0..count).all(|k| records[k].next == if k + 1 == count { 0 } else { k + 2 });
    let fit = records.iter().enumerate().all(|(k, record)| {
        let edge = &record.edge;
        (1..edge.b).contains(&edge.a)
            && edge.b as usize <= n
            && edge.mark <= 2
            && record.zeros == [0, 0, 0]
            && cost_fits(&Law::AS_WRITTEN, edge.cost)
            && !records[..k]
                .iter()
                .any(|other| same_pair(&other.edge, edge))
    });
    (head || !law.form_wants_head) && (chained || !law.form_wants_order) && fit
}
