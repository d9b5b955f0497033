//! Where things stand in the picture of a list: one lane for each host, one column for each millisecond in which
//! something happens.

use super::host::State;
use super::link::Step;
use crate::lines::Outcome;

/// Half a query mark with its surroundings, and the distances to the first and to each further reply, in pixels.
const HALF_MARK: i32 = 13;
const FIRST_REPLY: i32 = 22;
const NEXT_REPLY: i32 = 16;
const AFTER_REPLY: i32 = 8;

pub struct Column {
    pub time: u64,
    pub left: i32,
    pub right: i32,
    /// How many hosts asked or became unique in it.
    pub hosts: usize,
}

pub struct Query {
    pub x: i32,
    pub host: usize,
    /// The host's first, second or third.
    pub number: usize,
}

pub struct Reply {
    pub x: i32,
    pub from: usize,
    pub to: usize,
    pub tentative: bool,
    /// The number with which the asker refused it, if it did.
    pub refused: Option<u8>,
}

pub struct Layout {
    pub columns: Vec<Column>,
    pub queries: Vec<Query>,
    pub replies: Vec<Reply>,
    /// For each host the states in turn, and where each begins.
    pub states: Vec<Vec<(i32, State)>>,
}

impl Layout {
    /// Spreads the steps of a list from `left` to `right`.
    pub fn new(steps: &[Step], hosts: usize, left: i32, right: i32) -> Layout {
        let states = vec![vec![(left, State::Off)]; hosts];
        let mut layout = Layout { columns: Vec::new(), queries: Vec::new(), replies: Vec::new(), states };
        let shown: Vec<&Step> = steps.iter().filter(|step| shown(step)).collect();
        let columns = 1 + shown.windows(2).filter(|pair| pair[0].entry.time != pair[1].entry.time).count() as i32;
        let gap = (right - left - shown.iter().map(|step| width(step)).sum::<i32>()) / (columns + 1);
        let mut x = left;
        for step in shown {
            match layout.columns.last_mut().filter(|column| column.time == step.entry.time) {
                Some(column) => {
                    column.right += width(step);
                    column.hosts += 1;
                }
                None => {
                    x += gap;
                    layout.columns.push(Column { time: step.entry.time, left: x, right: x + width(step), hosts: 1 });
                }
            }
            layout.place(step, x + HALF_MARK);
            x += width(step);
        }
        layout
    }

    fn place(&mut self, step: &Step, x: i32) {
        let host = step.entry.host;
        if let Outcome::Unique { .. } = step.outcome {
            self.states[host].push((x, State::Holding));
            return;
        }
        let number = 1 + self.queries.iter().filter(|query| query.host == host).count();
        if number == 1 {
            self.states[host].push((x, State::Checking));
        }
        self.queries.push(Query { x, host, number });
        for (place, arrival) in step.arrivals.iter().filter(|arrival| arrival.reply).enumerate() {
            let x = x + FIRST_REPLY + NEXT_REPLY * place as i32;
            let (from, to, tentative) = (arrival.from, arrival.to, arrival.tentative);
            let mut reply = Reply { x, from, to, tentative, refused: None };
            match arrival.outcome {
                Outcome::Refused { no, .. } => reply.refused = Some(no),
                Outcome::Stopped { .. } => self.states[to].push((x, State::Stopped)),
                _ => {}
            }
            self.replies.push(reply);
        }
    }
}

/// Refused and quiet entries are not drawn.
fn shown(step: &Step) -> bool {
    matches!(step.outcome, Outcome::Query { .. } | Outcome::Unique { .. })
}

fn width(step: &Step) -> i32 {
    match step.arrivals.iter().filter(|arrival| arrival.reply).count() as i32 {
        0 => 2 * HALF_MARK,
        replies => HALF_MARK + FIRST_REPLY + NEXT_REPLY * (replies - 1) + AFTER_REPLY,
    }
}
