//! The picture of one start of a link after a mains break: five hosts within a few milliseconds, and one that comes
//! later.

use super::host::{Given, State};
use super::layout::Layout;
use super::link::Link;
use super::list::chosen_list;
use super::svg::Svg;
use super::words::address_words;
use crate::calls::{Address, Prefix, Setting};
use crate::random::Random;

const INTERVAL: u16 = 100;
const NAME: &[u8] = b"scale3";
/// The last octet of each host's address, and when it starts.
const STARTS: [(u8, u64); 6] = [(12, 7), (17, 4), (23, 0), (26, 310), (31, 2), (40, 4)];
const SEED: u64 = 1;

const WIDTH: i32 = 900;
/// The lanes, from left to right and from the first downwards.
const LEFT: i32 = 104;
const RIGHT: i32 = 774;
const FIRST_LANE: i32 = 96;
const LANE: i32 = 46;
const HALF_BAR: i32 = 9;

/// The picture as an SVG document.
pub fn picture() -> Result<String, String> {
    let mut random = Random::new(SEED);
    let mut link = Link::new(STARTS.iter().map(|(last, _)| given(*last)).collect());
    let starts: Vec<(u64, usize)> = STARTS.iter().enumerate().map(|(host, (_, time))| (*time, host)).collect();
    chosen_list(&mut link, &mut random, &starts)?;
    let latest = link.steps.iter().map(|step| step.entry.time).max().unwrap_or(0);
    let states = link.tell(&mut random, latest)?;
    let layout = Layout::new(&link.steps, link.hosts.len(), LEFT, RIGHT);
    let bottom = FIRST_LANE + LANE * (link.hosts.len() as i32 - 1) + 24;
    let mut svg = Svg::new(WIDTH, bottom + 122);
    heading(&mut svg, &link);
    columns(&mut svg, &layout, bottom);
    for (host, told) in states.iter().enumerate() {
        lane(&mut svg, &link, &layout, host, *told)?;
    }
    messages(&mut svg, &layout)?;
    legend(&mut svg, bottom + 60);
    Ok(svg.finish())
}

/// A host with one interface and a table of one name with its address.
pub fn given(last: u8) -> Given {
    let mut octets = [0; 16];
    octets[..4].copy_from_slice(&[192, 0, 2, last]);
    let mut name = vec![NAME.len() as u8];
    name.extend(NAME);
    name.push(0);
    let mut table = vec![4 + name.len() as u8, 0, 1, 0];
    table.extend(&name);
    table.extend([8, 0, 3, 0, 192, 0, 2, last]);
    let mut settings = [Setting::UNUSED; 4];
    settings[0] = Setting { address: Address { family: 4, octets }, interval: INTERVAL };
    let set_up = Prefix { interface: 0, time: 0, id: 0, room: 512 };
    Given { table, names: 1, number: 0, name, settings, used: 0, set_up }
}

fn lane_y(host: usize) -> i32 {
    FIRST_LANE + LANE * host as i32
}

fn heading(svg: &mut Svg, link: &Link) {
    let name = String::from_utf8_lossy(NAME);
    let interval = link.hosts[0].given.interval();
    let hosts = link.hosts.len();
    svg.text((12, 24), 14, "start", &format!("{hosts} indicators named {name} on one link, interval {interval} ms"));
    let note = "Time runs to the right. A shaded column is one millisecond; its events are drawn from left to right.";
    svg.text((12, 46), 12, "start", note);
}

fn columns(svg: &mut Svg, layout: &Layout, bottom: i32) {
    let top = FIRST_LANE - 26;
    for column in &layout.columns {
        svg.rectangle((column.left, top), (column.right - column.left, bottom - top), "#eef1f5", "none");
        let tie = if column.hosts > 1 { " (tie)" } else { "" };
        svg.text(((column.left + column.right) / 2, bottom + 18), 12, "middle", &format!("{}{tie}", column.time));
    }
    svg.line((LEFT, bottom), (RIGHT, bottom), "#333", "");
    for pair in layout.columns.windows(2).filter(|pair| pair[1].time - pair[0].time > 20) {
        let middle = (pair[0].right + pair[1].left) / 2;
        for x in [middle - 3, middle + 3] {
            svg.line((x - 3, bottom + 6), (x + 3, bottom - 6), "#333", "");
        }
    }
    svg.text((RIGHT + 12, bottom + 18), 12, "start", "ms");
}

/// A host's address, the bars of its states, and the state that it tells at the end: that of the last bar.
fn lane(svg: &mut Svg, link: &Link, layout: &Layout, host: usize, told: State) -> Result<(), String> {
    let y = lane_y(host);
    svg.text((12, y + 5), 13, "start", &address_words(&link.hosts[host].given.address()));
    let states = &layout.states[host];
    for (place, (from, state)) in states.iter().enumerate() {
        let to = states.get(place + 1).map_or(RIGHT, |next| next.0);
        bar(svg, (*from, y), to - from, *state);
    }
    if states.last().map(|last| last.1) != Some(told) {
        return Err(format!("host {host} tells {told:?} at the end, its last bar is another"));
    }
    let word = match told {
        State::Holding => "holds the name",
        State::Stopped => "stopped",
        State::Checking => "still checking",
        State::Off => "off",
    };
    svg.text((RIGHT + 12, y + 5), 13, "start", word);
    Ok(())
}

fn bar(svg: &mut Svg, (x, y): (i32, i32), width: i32, state: State) {
    let fill = match state {
        State::Off => "#ffffff",
        State::Checking => "url(#checking)",
        State::Holding => "#4c9a5f",
        State::Stopped => "url(#stopped)",
    };
    svg.rectangle((x, y - HALF_BAR), (width, 2 * HALF_BAR), fill, "#666");
}

fn messages(svg: &mut Svg, layout: &Layout) -> Result<(), String> {
    for query in &layout.queries {
        let last = lane_y(layout.states.len() - 1);
        svg.line((query.x, FIRST_LANE - HALF_BAR), (query.x, last + HALF_BAR), "#7a8794", "1 3");
    }
    for reply in &layout.replies {
        let (from, to) = (lane_y(reply.from), lane_y(reply.to));
        let side = if from < to { HALF_BAR } else { -HALF_BAR };
        if reply.refused.is_some_and(|no| no != 15) {
            return Err(format!("a reply is refused with {:?}, which the legend does not explain", reply.refused));
        }
        svg.arrow((reply.x, from + side), (reply.x, to - side), reply.tentative, reply.refused.is_none());
    }
    for query in &layout.queries {
        svg.number((query.x, lane_y(query.host)), query.number);
    }
    Ok(())
}

fn legend(svg: &mut Svg, y: i32) {
    let states = [
        (12, State::Off, "Off"),
        (110, State::Checking, "Verifying"),
        (240, State::Holding, "Unique"),
        (360, State::Stopped, "Stopped"),
    ];
    for (x, state, word) in states {
        bar(svg, (x, y), 36, state);
        svg.text((x + 44, y + 5), 12, "start", word);
    }
    svg.number((492, y), 1);
    svg.text((508, y + 5), 12, "start", "query to all others, the host's first, second or third");
    let arrows = [
        (12, true, true, "reply with T set"),
        (190, false, true, "reply with T clear"),
        (380, true, false, "reply that comes when the asker has stopped (refused 15)"),
    ];
    for (x, tentative, taken, word) in arrows {
        svg.arrow((x, y + 34), (x + 36, y + 34), tentative, taken);
        svg.text((x + 44, y + 39), 12, "start", word);
    }
}

#[cfg(test)]
mod tests {
    use super::picture;

    #[test]
    fn picture_is_always_the_same_and_tells_the_outcome() {
        let picture = picture().unwrap_or_default();
        assert_eq!(Ok(&picture), super::picture().as_ref());
        assert!(picture.starts_with("<svg ") && picture.ends_with("</svg>\n"));
        assert_eq!(picture.matches(">192.0.2.").count(), super::STARTS.len());
        assert_eq!(picture.matches(">holds the name<").count(), 1);
        assert_eq!(picture.matches(">stopped<").count(), super::STARTS.len() - 1);
        assert_eq!(picture.matches("(tie)").count(), 1);
    }
}
