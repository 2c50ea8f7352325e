//! Document 02's C-21: the simulator, and the comparison of settings.

use super::graph::{fits, Graph};
use super::law::Law;
use super::machine::{Answer, Call, Machine};
use super::rulings::ceiling_fits;
use super::tours::is_tour;
use super::tree::{self, Given, Method};
use super::{refuse, Refusal};

/// "The result has each leg's time, the total and the last state."
#[derive(Clone, PartialEq, Eq, Debug)]
pub struct Sailing {
    pub times: Vec<i64>,
    pub total: i64,
    pub state: u64,
}

/// What a simulation is asked beside the chart.
#[derive(Clone, Debug)]
pub struct Asked {
    pub legs: Vec<usize>,
    pub student: u64,
    pub spread: u64,
    /// how many times are lent
    pub length: usize,
}

/// "each leg first makes s the remainder of 1,664,525 × s + 1,013,904,223 by 4,294,967,296"
pub fn next(s: u64) -> u64 {
    ((1_664_525 * u128::from(s) + 1_013_904_223) % 4_294_967_296) as u64
}

/// "The delay is the remainder of (s divided by 65,536, rounded down) by 2e + 1, less e"
fn delay(law: &Law, s: u64, e: u64) -> i64 {
    let by = (2 * e + law.delays_beside_pairs).max(1);
    let drawn = if law.divided_first {
        s / 65_536 % by
    } else {
        s % by / 65_536
    };
    drawn as i64 - e as i64
}

/// The buoys that the legs lead to from buoy 1, the last one last; none if one leg does not go on from where the one before it ended.
fn buoys(graph: &Graph, legs: &[usize]) -> Option<Vec<usize>> {
    let mut at = 1;
    let mut met = Vec::new();
    for leg in legs {
        if !(1..=graph.m).contains(leg) {
            return None;
        }
        let (a, b) = (graph.a[leg - 1] as usize, graph.b[leg - 1] as usize);
        at = match at {
            _ if at == a => b,
            _ if at == b => a,
            _ => return None,
        };
        met.push(at);
    }
    Some(met)
}

/// "a round of all the chart's buoys in sailing order from buoy 1"
pub fn in_order(law: &Law, graph: &Graph, legs: &[usize]) -> bool {
    if !law.in_sailing_order {
        let known = legs.iter().all(|leg| (1..=graph.m).contains(leg));
        let mut edges = vec![0; graph.m];
        legs.iter()
            .filter(|_| known)
            .for_each(|leg| edges[leg - 1] = 1);
        return known && is_tour(graph, &edges);
    }
    let Some(mut met) = buoys(graph, legs) else {
        return false;
    };
    let back = met.last() == Some(&1);
    met.sort_unstable();
    back && (!law.each_buoy_once || met == (1..=graph.n).collect::<Vec<usize>>())
}

/// "36, after 15 and 11, when the legs given are not a round ..; 37, after it, when e or the number is out of range."
pub fn simulate(law: &Law, graph: &Graph, asked: &Asked) -> Result<Sailing, Refusal> {
    let Asked {
        legs,
        student,
        spread,
        length,
    } = asked;
    let lengths = legs.len() == graph.n && *length == graph.n;
    if !law.value_before_length && !lengths {
        return refuse(11, 0);
    }
    if !fits(law, graph) {
        return refuse(15, 0);
    }
    let numbers = *spread <= law.max_spread && *student <= law.max_student;
    let order = in_order(law, graph, legs);
    if !lengths {
        return refuse(11, 0);
    }
    if !law.order_before_numbers && !numbers {
        return refuse(37, 0);
    }
    if !order {
        return refuse(36, 0);
    }
    if !numbers {
        return refuse(37, 0);
    }
    let mut state = *student;
    let mut times = Vec::new();
    for leg in legs {
        let before = state;
        state = next(state);
        let drawn = if law.step_first { state } else { before };
        times.push(i64::from(graph.cost[leg - 1]) + delay(law, drawn, *spread));
    }
    Ok(Sailing {
        total: times.iter().sum(),
        times,
        state,
    })
}

/// What a comparison is asked: the arguments of opening, "with up to 16 pairs of sweeps and step instead of one, and an allowance".
#[derive(Clone, Debug)]
pub struct Trial {
    pub graph: Graph,
    pub multipliers: Vec<i32>,
    /// C-20's list, every hunt's
    pub ashore: Vec<u8>,
    pub ceiling: i64,
    pub budget: u64,
    pub denominator: u64,
    /// C-13's "yes or no", every hunt's
    pub lifting: u64,
    pub sweeps: Vec<u32>,
    pub steps: Vec<u32>,
    /// how many entries the report has
    pub length: usize,
}

/// "it reports the count with which each pair's hunt finishes, or 0 if still going on after the whole allowance. .. No pairs, or more than 16, come
/// under 11, as do .. a report list without one entry a pair." It takes the arguments of opening, so of C-13 whether it lifts, and of C-17
/// q, and 32 comes after 14, and of C-20 the list, and 35 comes after 32.
pub fn compare(law: &Law, method: Method, trial: &Trial) -> Result<Vec<u64>, Refusal> {
    admit(law, trial)?;
    let ashore = match law.compared_with_list {
        true => trial.ashore.clone(),
        false => vec![0; trial.graph.n],
    };
    let mut counts = Vec::new();
    let mut left = trial.budget;
    for (sweeps, step) in trial.sweeps.iter().zip(&trial.steps) {
        let mut machine = Machine::new(law, method);
        machine.call(&Call::Open {
            graph: Box::new(trial.graph.clone()),
            multipliers: trial.multipliers.clone(),
            ashore: ashore.clone(),
            ceiling: trial.ceiling,
            sweeps: *sweeps,
            step: *step,
            denominator: trial.denominator,
            lifting: trial.lifting,
        });
        let Answer::Ran { finished, count } = machine.call(&Call::Run { budget: left }) else {
            unreachable!("the opening was tested");
        };
        counts.push(if finished { count } else { 0 });
        if !law.budget_each {
            left -= count;
        }
    }
    Ok(counts)
}

/// The refusals of an opening, each pair's 14 among them.
fn admit(law: &Law, trial: &Trial) -> Result<(), Refusal> {
    let pairs = trial.sweeps.len();
    let wrong_pairs = !(1..=law.max_pairs).contains(&pairs)
        || trial.steps.len() != pairs
        || trial.length != pairs;
    let given = Given {
        graph: &trial.graph,
        multipliers: &trial.multipliers,
        ashore: &trial.ashore,
        q: trial.denominator,
    };
    if wrong_pairs && (fits(law, &trial.graph) || !law.value_before_length) {
        return refuse(11, 0);
    }
    tree::admit(law, &given, None)?;
    tree::admit_early(law, &given, 13)?;
    if !ceiling_fits(law, trial.ceiling) {
        return refuse(13, 0);
    }
    tree::admit_early(law, &given, 14)?;
    for (sweeps, step) in trial.sweeps.iter().zip(&trial.steps) {
        if *sweeps > law.max_sweeps || *step > law.max_step {
            return refuse(14, 0);
        }
    }
    tree::admit_last(law, &given)
}
