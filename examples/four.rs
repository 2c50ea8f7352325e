//! Document 01's four-vertex sea: its least 1-tree, its rulings, its cheapest tour, and the same tree with vertex 4 ashore. Build and run: see README.

use planner::{rule, tree, Edge, Graph, Refusal, Ruled, Search, Settings, Told, Tree, Verdict};

fn line(numbers: impl Iterator<Item = u8>) -> String {
    numbers.map(|number| format!(" {number}")).collect()
}

fn main() -> Result<(), Refusal> {
    let edges = [
        (1, 2, 4),
        (1, 3, 3),
        (1, 4, 5),
        (2, 3, 2),
        (2, 4, 6),
        (3, 4, 1),
    ];
    let graph = Graph::from_edges(4, &edges.map(|(a, b, cost)| Edge::free(a, b, cost)));
    let (multipliers, denominator) = ([0; 4], 1);
    let afloat = [0; 4]; // a byte for each vertex: 0 afloat, 1 ashore

    if let Tree::Found { bound, edges } = tree(&graph, &multipliers, &afloat, denominator)? {
        println!("tree {bound}:{}", line(edges.iter().map(|x| *x as u8)));
    }
    if let Ruled::Within { rulings, .. } = rule(&graph, &multipliers, &afloat, 12, denominator)? {
        println!("rulings at 12:{}", line(rulings.iter().map(|x| *x as u8)));
    }

    let settings = Settings {
        ceiling: 12,
        sweeps: 0,
        step: 0,
        denominator,
        lifting: 0,
    };
    let mut search = Search::fresh();
    search.open(&graph, &multipliers, &afloat, settings)?;
    search.run(1_000_000)?;
    if let Told {
        verdict: Verdict::Best(cost),
        nodes,
    } = search.tell()?
    {
        let tour = search.show()?;
        println!(
            "cost {cost} after {nodes} nodes:{}",
            line(tour.iter().map(|x| *x as u8))
        );
    }
    search.close()?;

    let ashore = [0, 0, 0, 1];
    if let Tree::Found { bound, edges } = tree(&graph, &multipliers, &ashore, denominator)? {
        let tree = line(edges.iter().map(|x| *x as u8));
        println!("with 4 ashore tree {bound}:{tree}");
    }
    Ok(())
}
