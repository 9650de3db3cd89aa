//! The picture of a history: operations in time, the order that fits, and what the marks mean.

mod axis;
mod label;
mod legend;
mod look;
mod order;
mod rows;
mod scene;
mod svg;
#[cfg(test)]
mod tests;

use crate::history::History;
use crate::search::Found;
use look::{text_width, BACKGROUND, MARGIN, STYLE};
use scene::Scene;
use svg::Svg;

/// An SVG of a history and of what the search has found.
pub fn picture(history: &History, found: &Found, title: Option<&str>) -> String {
    let title = title.unwrap_or(match found {
        Found::Order(_) => "A history, and an order that fits",
        Found::Unordered | Found::Nothing => "A history",
    });
    let mut scene = Scene::new(history, found);
    scene.axis.widen(MARGIN + text_width(title, 19));
    let mut svg = Svg::default();
    svg.text(MARGIN, MARGIN + 16, r#"class="title""#, title);
    svg.text(MARGIN, MARGIN + 36, r#"class="small""#, &about(history));
    let rows = rows::draw(&mut svg, &scene, MARGIN + 52);
    let order = order::draw(&mut svg, &scene, rows + 22);
    let bottom = legend::draw(&mut svg, &scene, order + 22);
    svg.finish((scene.axis.right + MARGIN, bottom + MARGIN - 8), title, STYLE, BACKGROUND)
}

fn about(history: &History) -> String {
    let count = |count: usize, one: &str| format!("{count} {one}{}", if count == 1 { "" } else { "s" });
    let operations = count(history.operations.len(), "operation");
    let clients = count(history.clients().len(), "client");
    format!("{}, {operations} of {clients}", history.about)
}
