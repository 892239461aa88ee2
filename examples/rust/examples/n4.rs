//! N4, the worked example of document 01, through the calls: builds the graph, customises it, asks for some distances
//! and routes, prints a dairy's list of farms, then closes an arc and asks again. It prints what examples/c/example.c does.

use griezmuld::{
    Arcs, Built, CostRoom, Costs, Distance, Filled, Graph, GraphRoom, Refusal, Roads, Route, Way,
    CLOSED, GREATEST_COST, VERSION,
};

const ARCS: Arcs = Arcs {
    tails: &[1, 0, 2, 3, 1],
    heads: &[0, 2, 3, 1, 3],
};
const ORDER: [u32; 4] = [0, 1, 2, 3];

/// The costs, and the lists that the calls write into: everything here is ours.
struct Net {
    costs: [u32; 5],
    rank: [u32; 4],
    first: [u32; 5],
    row_heads: [u32; 6],
    up: [u32; 6],
    down: [u32; 6],
}

/// Says which call refused, and why.
fn refused(call: &str, refusal: Refusal) -> String {
    let (number, place) = (refusal.number(), refusal.place());
    format!("{call}: refused {number}, place {place}")
}

fn show(name: &str, list: &[u32]) {
    print!("  {name}:");
    for &number in list {
        match number {
            CLOSED => print!(" -"),
            _ => print!(" {number}"),
        }
    }
    println!();
}

impl Net {
    fn roads(&self) -> Roads<'_> {
        Roads {
            arcs: ARCS,
            costs: &self.costs,
        }
    }

    fn graph(&self) -> Graph<'_> {
        Graph {
            order: &ORDER,
            rank: &self.rank,
            first: &self.first,
            row_heads: &self.row_heads,
        }
    }

    fn edge_costs(&self) -> Costs<'_> {
        Costs {
            up: &self.up,
            down: &self.down,
        }
    }

    fn build(&mut self) -> Result<usize, String> {
        let room = GraphRoom {
            rank: &mut self.rank,
            first: &mut self.first,
            row_heads: &mut self.row_heads,
        };
        match griezmuld::build(ARCS, &ORDER, room) {
            Built::Edges(edges) => Ok(edges as usize),
            Built::Refused(refusal) => Err(refused("build", refusal)),
        }
    }

    fn customise(&mut self) -> Result<(), String> {
        let (mut up, mut down) = (self.up, self.down);
        let room = CostRoom {
            up: &mut up,
            down: &mut down,
        };
        let answer = griezmuld::customise(self.roads(), self.graph(), room);
        (self.up, self.down) = (up, down);
        match answer {
            Filled::Done => Ok(()),
            Filled::Refused(refusal) => Err(refused("customise", refusal)),
        }
    }

    fn ask(&self, from: u32, to: u32) -> Result<(), String> {
        let mut list = [0; 3];
        let (graph, costs) = (self.graph(), self.edge_costs());
        let distance = griezmuld::distance(graph, costs, from, to);
        let route = griezmuld::route(self.roads(), graph, costs, from, to, &mut list);
        match (distance, route) {
            (Distance::Refused(refusal), _) => return Err(refused("distance", refusal)),
            (_, Route::Refused(refusal)) => return Err(refused("route", refusal)),
            (Distance::NoWalk, Route::NoWalk) => println!("{from} to {to}: none"),
            (Distance::Tenths(told), Route::Drive { distance, arcs }) if told == distance => {
                print!("{from} to {to}: {distance}, {arcs} arcs:");
                for arc in &list[..arcs as usize] {
                    print!(" {arc}");
                }
                println!();
            }
            _ => return Err("distance and route differ".to_string()),
        }
        Ok(())
    }

    /// Prints the distance from a dairy to every farm, and from every farm to the dairy.
    fn list_farms(&self, dairy: u32) -> Result<(), String> {
        println!("dairy {dairy}");
        for (way, call, name) in [
            (Way::From, "sweep_from", "to each farm"),
            (Way::To, "sweep_to", "and back"),
        ] {
            let mut list = [0; 4];
            match griezmuld::sweep(way, self.graph(), self.edge_costs(), dairy, &mut list) {
                Filled::Done => show(name, &list),
                Filled::Refused(refusal) => return Err(refused(call, refusal)),
            }
        }
        Ok(())
    }
}

fn main() -> Result<(), String> {
    if griezmuld::version() != VERSION {
        return Err("the wrappers and the archive are of different releases".to_string());
    }
    let mut n4 = Net {
        costs: [3, 4, 2, 6, 20],
        rank: [0; 4],
        first: [0; 5],
        row_heads: [0; 6],
        up: [0; 6],
        down: [0; 6],
    };
    let edges = n4.build()?;
    println!("build: E = {edges}");
    show("first", &n4.first);
    show("row heads", &n4.row_heads[..edges]);
    n4.customise()?;
    println!("customise");
    show("up", &n4.up[..edges]);
    show("down", &n4.down[..edges]);
    for (from, to) in [(1, 3), (0, 1), (2, 0), (0, 0)] {
        n4.ask(from, to)?;
    }
    n4.list_farms(0)?;

    println!("arc 2 closed");
    n4.costs[2] = CLOSED;
    n4.customise()?;
    n4.ask(0, 1)?;
    n4.ask(1, 3)?;
    n4.list_farms(0)?;

    println!("a cost that is too dear");
    n4.costs[2] = GREATEST_COST + 1;
    match n4.customise() {
        Ok(()) => Err("a cost that is too dear was accepted".to_string()),
        Err(said) => {
            println!("{said}");
            Ok(())
        }
    }
}
