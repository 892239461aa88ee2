//! Both sweeps on lists that every check accepts, held to the naive programs and to the distance call of the same
//! implementation; and the naive programs to Dijkstra.

use crate::judge::EVERY_PAIR;
use crate::lists::{shown, stale, Call, Lent, Lists, DISTANCES};
use crate::subject::{Subject, SUBJECTS};
use crate::tally::Tally;
use crate::{Told, CLOSED, NO_WALK};
use naive::calls::{listed, Asked, SweepLeaves};
use naive::roads::Roads;
use naive::sweeps::Sweep;
use naive::walks::{Dijkstra, Leaving};
use slices::Way;

/// Of how many farms a larger net's distance call is asked.
const FARMS: usize = 24;

/// Both sweeps of each dairy. With costs as customised, the roads are told.
pub fn hold(
    lists: &Lists,
    dairies: &[u32],
    roads: Option<&Roads>,
    tally: &mut Tally,
) -> Result<(), String> {
    let n = lists.order.len();
    let mut asked = Asked::of(&lists.order, lists.rows(), lists.held());
    let mut reach = roads.map(|roads| Reach::of(n, roads));
    let mut lent = SUBJECTS.map(|_| Lent::new(lists));
    for sweep in dairies
        .iter()
        .flat_map(|&at| [Sweep::From(at), Sweep::To(at)])
    {
        let leaves = listed(&agreed(&mut asked, reach.as_mut(), sweep)?);
        tally.swept += 1;
        for (subject, lent) in SUBJECTS.iter().zip(&mut lent) {
            Held {
                subject: *subject,
                lent,
                sweep,
                tally: &mut *tally,
            }
            .to(&leaves)
            .map_err(|error| format!("{}: {sweep:?}: {error}", subject.name()))?;
        }
    }
    for (subject, lent) in SUBJECTS.iter().zip(&mut lent) {
        if let Some(trespass) = lent.trespass(Call::Sweep(Way::From)) {
            return Err(format!(
                "{}: distance or a sweep {trespass}",
                subject.name()
            ));
        }
    }
    Ok(())
}

/// The distances by the naive programs, if those say the same: by the sweep, on a small net by definition, and along the
/// roads where these are told.
fn agreed(
    asked: &mut Asked,
    reach: Option<&mut Reach>,
    sweep: Sweep,
) -> Result<Vec<Option<u64>>, String> {
    let far = asked.by_sweep(sweep);
    let wrong = |other| {
        Err(format!(
            "{sweep:?}: the sweep and {other} differ; one of the judges is wrong"
        ))
    };
    if far.len() <= EVERY_PAIR && asked.by_distances(sweep) != far {
        return wrong("the distances");
    }
    let numbers = far.iter().map(|far| far.unwrap_or(NO_WALK));
    if reach.is_some_and(|reach| !reach.far(sweep).iter().copied().eq(numbers)) {
        return wrong("the roads");
    }
    Ok(far)
}

/// The open roads both ways, for Dijkstra from one to all.
struct Reach {
    leaving: Leaving,
    arriving: Leaving,
    dijkstra: Dijkstra,
}

impl Reach {
    fn of(n: usize, roads: &Roads) -> Reach {
        Reach {
            leaving: Leaving::of(n, roads),
            arriving: Leaving::of(n, &roads.turned()),
            dijkstra: Dijkstra::new(n),
        }
    }

    fn far(&mut self, sweep: Sweep) -> &[u64] {
        let net = match sweep {
            Sweep::From(_) => &self.leaving,
            Sweep::To(_) => &self.arriving,
        };
        self.dijkstra.distances(net, sweep.dairy())
    }
}

/// One implementation, asked for one sweep.
struct Held<'a> {
    subject: &'a dyn Subject,
    lent: &'a mut Lent,
    sweep: Sweep,
    tally: &'a mut Tally,
}

impl Held<'_> {
    /// In lists of n places and of other lengths, and against the distance call.
    fn to(&mut self, leaves: &SweepLeaves) -> Result<(), String> {
        let n = leaves.distances.len();
        for length in [0, n - 1, n + 1] {
            let told = Told {
                number: 15,
                ..Told::default()
            };
            let distances = stale(length);
            self.leaves(&SweepLeaves { told, distances })?;
        }
        self.leaves(leaves)?;
        self.says_what_distance_says(leaves)
    }

    /// In a list as long as the one that is to be left.
    fn leaves(&mut self, expected: &SweepLeaves) -> Result<(), String> {
        let length = expected.distances.len();
        self.lent.replace(DISTANCES, &stale(length));
        let way = match self.sweep {
            Sweep::From(_) => Way::From,
            Sweep::To(_) => Way::To,
        };
        let dairy = self.sweep.dairy();
        let told = self
            .lent
            .call(self.subject, Call::Sweep(way), (dairy, dairy));
        self.tally.call(expected.told);
        let list = self.lent.list(DISTANCES);
        if told != expected.told || list != expected.distances {
            return Err(format!(
                "in a list of {length}:\n  told     {told:?}, list {}\n  expected {:?}, list {}",
                shown(list),
                expected.told,
                shown(&expected.distances)
            ));
        }
        match self.lent.holds(DISTANCES) {
            true => Ok(()),
            false => Err("wrote outside its distance list".to_string()),
        }
    }

    /// Whether the list left, or the place of 16, is what the same implementation's distance call says of the farms.
    fn says_what_distance_says(&mut self, leaves: &SweepLeaves) -> Result<(), String> {
        let n = leaves.distances.len();
        let apart = if n <= EVERY_PAIR {
            1
        } else {
            n.div_ceil(FARMS)
        };
        for farm in (0..n).step_by(apart) {
            let (from, to) = self.sweep.pair(farm as u32);
            let far = self
                .lent
                .call(self.subject, Call::Distance, (from, to))
                .distance;
            let too_far = far != NO_WALK && far >= u64::from(CLOSED);
            let listed = self.lent.list(DISTANCES)[farm];
            let place = leaves.told.place as usize;
            let agrees = match leaves.told.number {
                16 if farm < place => !too_far,
                16 if farm == place => too_far,
                16 => true,
                _ => !too_far && u64::from(listed) == far.min(u64::from(CLOSED)),
            };
            if !agrees {
                return Err(format!(
                    "lists {listed}, where distance {from} to {to} tells {far}"
                ));
            }
        }
        Ok(())
    }
}
