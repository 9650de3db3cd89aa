//! The order that fits: its operations in a row of boxes, and below them the board that each one finds or leaves.

use super::label::{board, words};
use super::look::{code_width, text_width, Hue, MARGIN, START};
use super::rows::{fill, is_dark, looks, mark};
use super::scene::{mark_width, Scene, LEFT};
use super::svg::{Rect, Svg};
use crate::history::{Board, Operation};
use crate::search::Found;

/// The height of a box, and of the board below it.
const BOX: i64 = 40;
const BAND: i64 = 20;

/// Between boxes, and between rows of them.
const GAP: i64 = 6;
const ROW: i64 = BOX + 4 + BAND + 16;

/// Draws it from `top` on; where it ends.
pub fn draw(svg: &mut Svg, scene: &Scene, top: i64) -> i64 {
    match scene.found {
        Found::Order(_) => draw_order(svg, scene, top),
        Found::Unordered => {
            let why =
                "with tags left aside orders fit, but in none do the ended writes stand in rising tag order";
            draw_none(svg, top, why)
        }
        Found::Nothing => draw_none(svg, top, "these are not the operations of a single board"),
    }
}

fn draw_none(svg: &mut Svg, top: i64, why: &str) -> i64 {
    svg.text(MARGIN, top + 16, r#"class="bad""#, "no order fits");
    svg.text(MARGIN, top + 36, r#"class="small""#, why);
    top + 44
}

/// One box: the starting board's, or that of an operation.
struct Cell<'a> {
    operation: Option<(usize, &'a Operation)>,
    /// The board after it.
    board: Option<&'a Board>,
    at: Rect,
}

fn draw_order(svg: &mut Svg, scene: &Scene, top: i64) -> i64 {
    let cells = cells(scene, top);
    for (place, cell) in cells.iter().enumerate() {
        let next = cells.get(place + 1).filter(|next| next.at.y == cell.at.y);
        let first = place == 0 || cells[place - 1].at.y != cell.at.y;
        if first {
            svg.text(MARGIN, cell.at.y + BOX + 4 + 14, r#"class="small""#, "board");
        }
        draw_band(svg, scene, cell, next.map_or(cell.at.right(), |next| next.at.x), first);
        draw_box(svg, scene, cell);
    }
    svg.text(MARGIN, top + 24, r#"class="row""#, "order that fits");
    cells.last().map_or(top, |cell| cell.at.y + ROW - 16)
}

/// From left to right, in as many rows as they need.
fn cells<'a>(scene: &'a Scene, top: i64) -> Vec<Cell<'a>> {
    let mut board = scene.history.start.as_ref();
    let (mut x, mut y) = (LEFT, top);
    let operations = scene.order().iter().map(|i| Some((*i, &scene.history.operations[*i])));
    let cell = |operation: Option<(usize, &'a Operation)>| {
        let width = operation.map_or_else(|| start_width(board), |(i, o)| width(scene, i, o));
        if x > LEFT && x + width > scene.axis.right {
            (x, y) = (LEFT, y + ROW);
        }
        let at = Rect { x, y, width, height: BOX };
        x += width + GAP;
        board = operation.filter(|(_, o)| o.is_write()).map_or(board, |(_, o)| o.board());
        Cell { operation, board, at }
    };
    [None].into_iter().chain(operations).map(cell).collect()
}

fn start_width(start: Option<&Board>) -> i64 {
    (code_width(&shown(start)) + 14).max(54)
}

fn shown(state: Option<&Board>) -> String {
    state.map_or("unknown".to_string(), board)
}

fn width(scene: &Scene, i: usize, operation: &Operation) -> i64 {
    let place = scene.places[i].unwrap_or(0);
    let code = mark_width(place) + 4 + code_width(&scene.labels[i].code);
    code.max(text_width(&who(scene, i, operation), 11)) + 14
}

/// The second line of a box.
fn who(scene: &Scene, i: usize, operation: &Operation) -> String {
    let note = scene.labels[i].note.as_ref().map_or(String::new(), |note| format!(", {note}"));
    format!("client {}{note}", operation.client)
}

fn draw_box(svg: &mut Svg, scene: &Scene, cell: &Cell) {
    let Rect { x, y, .. } = cell.at;
    let Some((i, operation)) = cell.operation else {
        let look = format!(r#"rx="5" fill="none" stroke="{}" stroke-dasharray="4 3""#, START.strong);
        svg.rect(cell.at, &look);
        svg.text(x + 12, y + 24, "", "start");
        return;
    };
    let (hue, place, dark) = (scene.hue(operation), scene.places[i].unwrap_or(0), is_dark(operation));
    svg.open(&words(operation, scene.places[i]));
    svg.rect(cell.at, &(r#"rx="5" "#.to_string() + &fill(operation, hue)));
    mark(svg, (x + 5, y + 13), place, (dark, hue));
    svg.text(x + 11 + mark_width(place), y + 17, looks(dark).0, &scene.labels[i].code);
    let look = if dark { r#"class="small white" fill-opacity="0.9""# } else { r#"class="small""# };
    svg.text(x + 7, y + 33, look, &who(scene, i, operation));
    svg.close();
}

/// The board after a cell, up to the next one's place. Its bytes stand where it is new, or first in a row.
fn draw_band(svg: &mut Svg, scene: &Scene, cell: &Cell, right: i64, first: bool) {
    let Rect { x, y, .. } = cell.at;
    let hue: Hue = cell.board.map_or(START, |board| scene.hues.of(board));
    let at = Rect { x, y: y + BOX + 4, width: right - x, height: BAND };
    svg.rect(at, &format!(r#"fill="{}""#, hue.strong));
    if first || cell.operation.is_some_and(|(_, operation)| operation.is_write()) {
        svg.line((x, at.y), (x, at.y + BAND), r##"stroke="#ffffff" stroke-width="2""##);
        svg.text(x + 7, at.y + 14, r#"class="code white""#, &shown(cell.board));
    }
}
