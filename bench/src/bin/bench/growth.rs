//! What a call costs against the size of the name table, measured and drawn.

use crate::cases::{large_table, Case};
use crate::measure::{measure, IMPLEMENTATIONS, ROUNDS};
use crate::svg::{Panel, Series};

const SIZES: [usize; 5] = [0, 512, 1_024, 2_048, 4_096];

/// The slope of the straight line that lies nearest to the points.
fn slope(points: &[(f64, f64)]) -> f64 {
    let count = points.len() as f64;
    let (x, y) = points.iter().fold((0.0, 0.0), |(x, y), point| (x + point.0 / count, y + point.1 / count));
    let products: f64 = points.iter().map(|point| (point.0 - x) * (point.1 - y)).sum();
    products / points.iter().map(|point| (point.0 - x).powi(2)).sum::<f64>()
}

/// The least times of a call, for each implementation and size: other work on the machine moves them least.
fn panel(title: &str, case: impl Fn(&[u8]) -> Case) -> Result<Panel, String> {
    let mut points = [const { Vec::new() }; IMPLEMENTATIONS.len()];
    for size in SIZES {
        let times = measure(&case(&large_table(size)))?;
        for (points, time) in points.iter_mut().zip(times) {
            points.push((size as f64, time.least));
        }
    }
    let series = IMPLEMENTATIONS.iter().zip(points).map(|(implementation, points)| Series {
        title: implementation.title.to_string(),
        note: format!("{:.2} ns per octet", slope(&points)),
        points,
    });
    Ok(Panel { title: title.to_string(), series: series.collect() })
}

fn print(panel: &Panel) {
    println!("{}: ns per call, least of {ROUNDS} rounds, by octets of the table", panel.title);
    print!("{:24}", "");
    SIZES.iter().for_each(|size| print!("{size:>8}"));
    println!();
    for series in &panel.series {
        print!("{:24}", series.title);
        series.points.iter().for_each(|(_, time)| print!("{time:>8.0}"));
        println!("   {}", series.note);
    }
}

/// Measures, prints the figures, and gives the drawing.
pub fn draw() -> Result<String, String> {
    let panels = [
        panel("Query for another name", |table| Case::other_name("other", "", table))?,
        panel("Tick with nothing due", |table| Case::quiet_tick("tick", "", table))?,
    ];
    panels.iter().for_each(print);
    Ok(crate::svg::draw(&panels, "octets of the name table", "ns per call"))
}
