//! The plots, drawn from the measured rows.
use crate::axis::{Axis, label};
use crate::rows::Row;
use crate::svg::{Anchor, Picture};

/// A point: where it is, and what it says to a pointer.
struct Point {
    x: f64,
    y: f64,
    title: String,
}

struct Series {
    name: String,
    points: Vec<Point>,
}

const CONTENDERS: [&str; 3] = ["product", "plain", "tuned"];

fn series<'a>(rows: &[&'a Row], of: impl Fn(&'a Row) -> (f64, f64)) -> Vec<Series> {
    let one = |name: &str| {
        let own = rows.iter().filter(|row| row.contender == name);
        let point = |row: &&'a Row| {
            let (x, y) = of(row);
            Point { x, y, title: format!("{}, {}: {}", row.name, row.contender, label(y)) }
        };
        Series { name: name.into(), points: own.map(point).collect() }
    };
    CONTENDERS.map(one).into()
}

/// The names of series by number, side by side.
fn legend<'a>(picture: &mut Picture, names: impl Iterator<Item = (usize, &'a str)>, at: (f64, f64)) {
    let mut x = at.0;
    for (series, name) in names {
        picture.mark(series, (x, at.1 - 4.0), name);
        picture.text("", (x + 10.0, at.1), Anchor::Start, name);
        x += 30.0 + 7.5 * name.len() as f64;
    }
}

/// A plot of points over two axes by powers of ten.
fn scatter(title: &str, x_label: &str, y_label: &str, all: Vec<Series>) -> String {
    let (left, top, right, bottom) = (80.0, 70.0, 770.0, 430.0);
    let mut picture = Picture::new(800.0, 490.0);
    let points = || all.iter().flat_map(|series| &series.points);
    let x = Axis::over(points().map(|point| point.x), left, right);
    let y = Axis::over(points().map(|point| point.y), bottom, top);
    picture.text("title", (left, 26.0), Anchor::Start, title);
    legend(&mut picture, all.iter().map(|series| series.name.as_str()).enumerate(), (left + 6.0, 52.0));
    for tick in x.ticks() {
        picture.line("grid", (x.place(tick), top), (x.place(tick), bottom));
        picture.text("", (x.place(tick), bottom + 18.0), Anchor::Middle, &label(tick));
    }
    for tick in y.ticks() {
        picture.line("grid", (left, y.place(tick)), (right, y.place(tick)));
        picture.text("", (left - 8.0, y.place(tick) + 4.0), Anchor::End, &label(tick));
    }
    picture.frame((left, top), (right, bottom));
    for (i, series) in all.iter().enumerate() {
        for point in &series.points {
            picture.mark(i, (x.place(point.x), y.place(point.y)), &point.title);
        }
    }
    picture.text("", ((left + right) / 2.0, bottom + 44.0), Anchor::Middle, x_label);
    picture.upright((22.0, (top + bottom) / 2.0), y_label);
    picture.finish()
}

/// A line for each input: the product's time divided by a contender's, the middle of the rounds as a mark and the quickest to the slowest as a bar.
fn ranges(title: &str, rows: &[&Row], marks: &[f64]) -> String {
    let mut names: Vec<&str> = rows.iter().map(|row| row.name.as_str()).collect();
    names.dedup();
    let (left, top, right) = (310.0, 84.0, 770.0);
    let bottom = top + 24.0 * names.len() as f64;
    let mut picture = Picture::new(800.0, bottom + 60.0);
    let shown = || rows.iter().filter(|row| row.contender == "plain" || row.contender == "tuned");
    let x = Axis::over(shown().flat_map(|row| [row.ratio.least, row.ratio.most]).chain(marks.iter().copied()), left, right);
    picture.text("title", (20.0, 26.0), Anchor::Start, title);
    legend(&mut picture, [(1, "beside plain"), (2, "beside tuned")].into_iter(), (left + 6.0, 50.0));
    for tick in x.ticks() {
        picture.line("grid", (x.place(tick), top), (x.place(tick), bottom));
        picture.text("", (x.place(tick), bottom + 18.0), Anchor::Middle, &label(tick));
    }
    for mark in marks {
        picture.line("line", (x.place(*mark), top - 4.0), (x.place(*mark), bottom));
        picture.text("small", (x.place(*mark), top - 7.0), Anchor::Middle, &format!("{mark}"));
    }
    for row in shown() {
        let line = names.iter().position(|name| *name == row.name).unwrap_or(0);
        let y = top + 24.0 * line as f64 + 12.0;
        let series = if row.contender == "plain" { 1 } else { 2 };
        picture.line(&format!("s{series}"), (x.place(row.ratio.least), y), (x.place(row.ratio.most), y));
        picture.mark(series, (x.place(row.ratio.middle), y), &format!("{}: {:.2}", row.name, row.ratio.middle));
    }
    for (line, name) in names.iter().enumerate() {
        picture.text("small", (left - 10.0, top + 24.0 * line as f64 + 16.0), Anchor::End, name);
    }
    picture.frame((left, top), (right, bottom));
    picture.text(
        "",
        ((left + right) / 2.0, bottom + 44.0),
        Anchor::Middle,
        "product's time divided by the baseline's (left of 1: the product is faster)",
    );
    picture.finish()
}

/// The plots by file name.
pub fn all(rows: &[Row]) -> Vec<(&'static str, String)> {
    let of = |service: &str| rows.iter().filter(|row| row.service == service).collect::<Vec<_>>();
    let (search, check) = (of("search"), of("check"));
    let whole = |row: &Row| (row.units as f64, row.time.least * row.units as f64 / 1e6);
    let a_node = |row: &Row| (row.longest as f64, row.time.least);
    vec![
        ("search-nodes.svg", scatter("A search: time against nodes", "nodes visited", "milliseconds a call", series(&search, whole))),
        (
            "search-terms.svg",
            scatter(
                "A node: time against the length of conditions",
                "terms of the longest condition",
                "nanoseconds a node",
                series(&search, a_node),
            ),
        ),
        ("search-ratios.svg", ranges("Searches: the product beside the baselines", &search, &[1.0, 8.0])),
        (
            "check-records.svg",
            scatter("A check: time against records", "records of the list", "milliseconds a call", series(&check, whole)),
        ),
        ("check-ratios.svg", ranges("Checkers: the product beside the baselines", &check, &[1.0])),
    ]
}
