//! What an evaluation costs against the place of the first true term and the length of the condition, in instructions.
use crate::axis::grouped;
use crate::first_true::{LENGTHS, PLACES, Shape};
use crate::{compare, instructions, jobs};

/// The lengths for the product, then for the plain evaluator.
fn header() -> String {
    let lengths = LENGTHS.map(|terms| format!("{terms} terms")).join("\t");
    format!("First true term\tProduct: {lengths}\tPlain: {lengths}\n")
}

/// The product's evaluation less its reading of the same bytes, and the plain evaluation; nothing where valgrind isn't there.
fn costs(shape: Shape) -> Option<[u64; 2]> {
    let mut jobs = jobs::of_shape(shape);
    jobs.iter_mut().for_each(compare::compare);
    let evaluation = instructions::by(&jobs[0], &["product", "plain"]);
    let reading = instructions::by(&jobs[1], &["product"]);
    Some([evaluation[0]?.saturating_sub(reading[0]?), evaluation[1]?])
}

/// The fields of a place: the product's for each length, then the plain evaluator's. They are empty where a condition is too short for it.
fn line(place: Option<usize>) -> Option<String> {
    let mut fields = [vec![place.map_or("none".into(), |place| place.to_string())], Vec::new()];
    for terms in LENGTHS {
        let shape = Shape { conditions: 1, terms, place };
        let texts = if shape.has_its_place() { costs(shape)?.map(grouped) } else { [String::new(), String::new()] };
        fields.iter_mut().zip(texts).for_each(|(fields, text)| fields.push(text));
    }
    Some(fields.concat().join("\t"))
}

/// A line for each place, fields parted by tabs.
pub fn measure() -> String {
    let mut text = header();
    for place in PLACES {
        let Some(line) = line(place) else { return String::new() };
        println!("{line}");
        text += &(line + "\n");
    }
    text
}
