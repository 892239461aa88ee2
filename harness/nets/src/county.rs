//! Synthetic counties: a grid pushed about, with dead ends, one-ways, parallel roads and closed arcs.

use crate::source::Source;
use crate::{Net, CLOSED};

/// How much of each there is, in percent.
#[derive(Clone, Copy, Debug)]
pub struct Character {
    /// Roads of the grid that aren't there.
    pub missing: usize,
    /// Roads that lead one way only.
    pub one_way: usize,
    /// Roads that are listed twice.
    pub twice: usize,
    /// Arcs that are closed.
    pub closed: usize,
}

/// What a county is usually like.
pub const USUAL: Character = Character {
    missing: 20,
    one_way: 8,
    twice: 3,
    closed: 1,
};

/// A county of n junctions, numbered anyhow.
pub fn county(n: usize, character: Character, source: &mut Source) -> Net {
    let width = (1..).find(|width| width * width >= n).expect("a width");
    let mut number: Vec<u32> = (0..n as u32).collect();
    source.shuffle(&mut number);
    let mut net = Net {
        n,
        east: vec![0; n],
        north: vec![0; n],
        ..Net::default()
    };
    for site in 0..n {
        let junction = number[site] as usize;
        net.east[junction] = (site % width * 3_000 + source.below(2_000)) as i32;
        net.north[junction] = (site / width * 3_000 + source.below(2_000)) as i32;
    }
    for site in 0..n {
        let beside = (site % width + 1 < width && site + 1 < n).then_some(site + 1);
        let above = (site + width < n).then_some(site + width);
        for other in [beside, above].into_iter().flatten() {
            if !source.percent(character.missing) {
                road(&mut net, number[site], number[other], character, source);
            }
        }
    }
    net
}

fn road(net: &mut Net, a: u32, b: u32, character: Character, source: &mut Source) {
    let (a, b) = if source.percent(50) { (a, b) } else { (b, a) };
    let listings = 1 + usize::from(source.percent(character.twice));
    let both_ways = !source.percent(character.one_way);
    for _ in 0..listings {
        let cost = 30 + source.below(900) as u32;
        for (tail, head) in [(a, b), (b, a)]
            .into_iter()
            .take(1 + usize::from(both_ways))
        {
            let closed = source.percent(character.closed);
            net.arc(tail, head, if closed { CLOSED } else { cost });
        }
    }
}
