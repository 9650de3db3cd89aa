//! What the marks of a picture mean; those that it has.

use super::look::{text_width, Hue, MARGIN, ODD};
use super::rows::{cross, mark, ragged, triangle};
use super::scene::Scene;
use super::svg::{Rect, Svg};
use crate::history::{Call, Operation};

/// Of no board.
const SAMPLE: Hue = Hue { strong: "#3d4654", pale: "#eef0f2" };

const LINE: i64 = 22;

enum Sample {
    Write,
    Read,
    Place,
    Unended,
    Spent,
    Odd,
    Crash,
    Restart,
}

/// Draws it from `top` on, in as many lines as it needs; where it ends.
pub fn draw(svg: &mut Svg, scene: &Scene, top: i64) -> i64 {
    svg.line((MARGIN, top), (scene.axis.right, top), r##"stroke="#e3e6ea""##);
    let (mut x, mut y) = (MARGIN, top + LINE);
    for (sample, text) in samples(scene) {
        let width = 34 + text_width(text, 11) + 8;
        if x > MARGIN && x + width > scene.axis.right {
            (x, y) = (MARGIN, y + LINE);
        }
        draw_sample(svg, &sample, x, y);
        svg.text(x + 34, y + 4, r#"class="small""#, text);
        x += width;
    }
    y + 10
}

fn samples(scene: &Scene) -> Vec<(Sample, &'static str)> {
    let operations = &scene.history.operations;
    let any = |test: &dyn Fn(&Operation) -> bool| operations.iter().any(test);
    let odd = |o: &Operation| o.call == Call::Read && o.board().is_some() && scene.hue(o) == ODD;
    let all = [
        (true, Sample::Write, "write, in the colour of its board"),
        (true, Sample::Read, "read, with the tag and board that it shows"),
        (!scene.order().is_empty(), Sample::Place, "place in the order that fits"),
        (any(&|o| o.end.is_none()), Sample::Unended, "unended: may count later, or never"),
        (any(&|o| o.is_spent()), Sample::Spent, "spent: in no order"),
        (any(&odd), Sample::Odd, "read of a board that nobody wrote"),
        (!scene.history.crashes.is_empty(), Sample::Crash, "crash"),
        (!scene.history.restarts.is_empty(), Sample::Restart, "restart: goes on with what it had"),
    ];
    all.into_iter().filter(|(is, ..)| *is).map(|(_, sample, text)| (sample, text)).collect()
}

/// Around this height, 26 wide.
fn draw_sample(svg: &mut Svg, sample: &Sample, x: i64, middle: i64) {
    let at = Rect { x, y: middle - 8, width: 26, height: 16 };
    let edged = |hue: Hue, more: &str| format!(r#"rx="4" fill="{}" stroke="{}"{more}"#, hue.pale, hue.strong);
    match sample {
        Sample::Write => svg.rect(at, &format!(r#"rx="4" fill="{}""#, SAMPLE.strong)),
        Sample::Read => svg.rect(at, &edged(SAMPLE, "")),
        Sample::Place => mark(svg, (x + 4, middle), 1, (false, SAMPLE)),
        Sample::Unended => ragged(svg, at, &format!(r#"fill="{}""#, SAMPLE.strong)),
        Sample::Spent => svg.rect(at, &edged(super::look::GREY, r#" stroke-dasharray="4 3""#)),
        Sample::Odd => svg.rect(at, &edged(ODD, "")),
        Sample::Crash => cross(svg, x + 13, middle),
        Sample::Restart => triangle(svg, x + 13, middle),
    }
}
