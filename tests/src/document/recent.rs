//! Document 02's C-22, 'Costs from the last sailings': each cost worked out afresh from the whole log.

use super::graph::{fits, Graph};
use super::law::Law;
use super::{refuse, Refusal};

/// "the season's log, a long list of leg and time pairs", as the call takes it, and w.
#[derive(Clone, Debug)]
pub struct Log {
    pub w: usize,
    pub legs: Vec<usize>,
    pub times: Vec<i32>,
}

impl Log {
    /// The log so far: the first so many entries.
    pub fn so_far(&self, entries: usize) -> Log {
        Log {
            w: self.w,
            legs: self.legs[..entries].to_vec(),
            times: self.times[..entries].to_vec(),
        }
    }
}

/// "A leg's cost should be the greatest of its last w times", "A leg with fewer sailings uses those it has, and one with none
/// keeps the chart's cost."
fn cost(law: &Law, own: i32, times: &[i32], w: usize) -> i32 {
    if times.is_empty() {
        return own;
    }
    let window = if law.window_is_asked {
        w
    } else {
        law.max_window
    };
    let mut all = Vec::new();
    if !law.begins_empty {
        all.extend(vec![0; window]);
    }
    if !law.chart_is_no_time {
        all.push(own);
    }
    all.extend(times);
    let last = all.iter().rev().take(window + law.times_more);
    *last.max().unwrap_or(&own)
}

/// "39 when a log entry names no leg or a time outside the cost range, the first such entry's place given, from 1".
fn entries(law: &Law, graph: &Graph, log: &Log) -> Result<(), Refusal> {
    for (i, (leg, time)) in log.legs.iter().zip(&log.times).enumerate() {
        let named = (1..=graph.m).contains(leg);
        let in_range = i64::from(*time).abs() <= law.max_cost;
        if !named || !in_range {
            return refuse(39, i + law.first_entry);
        }
    }
    Ok(())
}

/// "38 when w is out of range".
fn window(law: &Law, log: &Log) -> Result<(), Refusal> {
    match (1..=law.max_window).contains(&log.w) {
        true => Ok(()),
        false => refuse(38, 0),
    }
}

/// The chart that the log makes: "Both after 15 and 11: 38 ..; then 39 .. A log whose legs and times differ in number comes under 11."
pub fn call(law: &Law, graph: &Graph, log: &Log) -> Result<Graph, Refusal> {
    let value = || {
        if fits(law, graph) {
            Ok(())
        } else {
            refuse(15, 0)
        }
    };
    let lengths = || match log.legs.len() == log.times.len() {
        true => Ok(()),
        false => refuse(11, 0),
    };
    if law.value_before_length {
        value()?;
        lengths()?;
    } else {
        lengths()?;
        value()?;
    }
    if law.window_before_entries {
        window(law, log)?;
        entries(law, graph, log)?;
    } else {
        entries(law, graph, log)?;
        window(law, log)?;
    }
    let mut times = vec![Vec::new(); graph.m];
    for (leg, time) in log.legs.iter().zip(&log.times) {
        times[leg - 1].push(*time);
    }
    let mut made = graph.clone();
    for (k, times) in times.iter().enumerate() {
        made.cost[k] = cost(law, graph.cost[k], times, log.w);
    }
    Ok(made)
}
