//! The rows of the chart: the axis, a row for each client with its operations, and one for the servers that crash.

use super::axis::closing;
use super::label::{words, Label};
use super::look::{code_width, Hue, BAR, MARGIN, MARK};
use super::scene::{mark_width, server_turns, Scene, LEFT};
use super::svg::{Rect, Svg};
use crate::history::Operation;

/// A client's row.
const ROW: i64 = 48;

/// That of the servers.
const SERVERS: i64 = 34;

/// The numbers of events.
const TIMES: i64 = 22;

/// Draws them from `top` on; where they end.
pub fn draw(svg: &mut Svg, scene: &Scene, top: i64) -> i64 {
    let clients = scene.history.clients();
    let servers = !server_turns(scene.history).is_empty();
    let rows = top + TIMES + clients.len() as i64 * ROW;
    let bottom = rows + if servers { SERVERS } else { 0 };
    draw_times(svg, scene, top, bottom);
    for (place, client) in clients.iter().enumerate() {
        draw_client(svg, scene, *client, top + TIMES + place as i64 * ROW);
    }
    if servers {
        draw_servers(svg, scene, rows);
    }
    bottom
}

fn draw_times(svg: &mut Svg, scene: &Scene, top: i64, bottom: i64) {
    if scene.history.operations.is_empty() {
        svg.text(LEFT, top + 12, r#"class="small""#, "nothing begins");
    }
    if scene.axis.columns().next().is_some() {
        svg.text(MARGIN, top + 12, r#"class="small""#, "event");
    }
    for (time, x) in scene.axis.columns() {
        svg.text(x, top + 12, r#"class="time""#, &time.to_string());
        svg.line((x, top + 18), (x, bottom), r##"stroke="#eceded""##);
    }
}

fn draw_client(svg: &mut Svg, scene: &Scene, client: u8, top: i64) {
    let (middle, rank) = (top + ROW / 2, scene.history.rank(client));
    let name = format!("client {client}");
    svg.text(MARGIN, middle + if rank == 0 { 5 } else { -1 }, r#"class="row""#, &name);
    if rank != 0 {
        svg.text(MARGIN, middle + 13, r#"class="small""#, &format!("rank {rank}"));
    }
    let right = scene.axis.right;
    let crash = scene.history.crash_of(client).map(|time| (time, scene.axis.x(time)));
    let up = crash.map_or(right, |(_, x)| x);
    svg.line((LEFT, middle), (up, middle), r##"stroke="#c4c9d1" stroke-width="1.5""##);
    for (place, operation) in scene.history.operations.iter().enumerate() {
        if operation.client == client {
            draw_operation(svg, scene, place, middle);
        }
    }
    if let Some((time, x)) = crash {
        svg.open(&format!("client {client} crashes at event {time}"));
        cross(svg, x, middle);
        svg.close();
    }
}

fn draw_operation(svg: &mut Svg, scene: &Scene, place: usize, middle: i64) {
    let operation = &scene.history.operations[place];
    let (hue, left) = (scene.hue(operation), scene.axis.x(operation.begin));
    let closing = closing(scene.history, place);
    let right = closing.map_or(scene.axis.right, |time| scene.axis.x(time));
    svg.open(&words(operation, scene.places[place]));
    let at = Rect { x: left, y: middle - BAR / 2, width: right - left, height: BAR };
    if operation.end.is_some() {
        svg.rect(at, &(r#"rx="5" "#.to_string() + &fill(operation, hue)));
    } else {
        let at = Rect { width: at.width - if closing.is_some() { 10 } else { 0 }, ..at };
        ragged(svg, at, &fill(operation, hue));
        let crash = scene.history.crash_of(operation.client);
        if closing.is_some() && closing == crash && operation.is_write() {
            let look = format!(r#"stroke="{}" stroke-width="1.5" stroke-dasharray="2 5""#, hue.strong);
            svg.line((right + 10, middle), (scene.axis.right, middle), &look);
        }
    }
    draw_label(svg, (left, middle), (&scene.labels[place], scene.places[place]), (is_dark(operation), hue));
    svg.close();
}

/// Whether its bar has the strong colour.
pub fn is_dark(operation: &Operation) -> bool {
    operation.is_write() && !operation.is_spent()
}

/// A bar's colours: a write's are strong, a read's pale with a strong edge; what is spent or shows nothing has a broken
/// edge.
pub fn fill(operation: &Operation, hue: Hue) -> String {
    if is_dark(operation) {
        return format!(r#"fill="{0}" stroke="{0}""#, hue.strong);
    }
    let broken = if operation.tag().is_none() { r#" stroke-dasharray="4 3""# } else { "" };
    format!(r#"fill="{}" stroke="{}" stroke-width="1.2"{broken}"#, hue.pale, hue.strong)
}

/// The mark with the place, if there is one, then the label; from this point to the right.
fn draw_label(svg: &mut Svg, at: (i64, i64), what: (&Label, Option<usize>), colours: (bool, Hue)) {
    let ((x, middle), (label, place), (dark, hue)) = (at, what, colours);
    let mut x = x + 7;
    if let Some(place) = place {
        mark(svg, (x - 2, middle), place, (dark, hue));
        x += mark_width(place) + 4;
    }
    let (code, tag) = looks(dark);
    svg.text(x, middle + 4, code, &label.code);
    if let Some(note) = &label.note {
        svg.text(x + code_width(&label.code) + 6, middle + 4, tag, note);
    }
}

/// Those of a label and of its note.
pub fn looks(dark: bool) -> (&'static str, &'static str) {
    if dark {
        (r#"class="code white""#, r#"class="tag white" fill-opacity="0.85""#)
    } else {
        (r#"class="code""#, r#"class="tag faint""#)
    }
}

/// A place of the order.
pub fn mark(svg: &mut Svg, at: (i64, i64), place: usize, colours: (bool, Hue)) {
    let ((x, middle), (dark, hue)) = (at, colours);
    let width = mark_width(place);
    let at = Rect { x, y: middle - MARK / 2, width, height: MARK };
    svg.rect(at, &format!(r#"rx="8" fill="{}""#, if dark { "#ffffff" } else { hue.strong }));
    let look = if dark {
        format!(r#"class="mark" style="fill: {}""#, hue.strong)
    } else {
        r#"class="mark white""#.to_string()
    };
    svg.text(x + width / 2, middle + 4, &look, &place.to_string());
}

/// A bar whose right edge is open.
pub fn ragged(svg: &mut Svg, at: Rect, look: &str) {
    let Rect { x, y, height, .. } = at;
    let teeth = "l-4 4l4 4".repeat((height / 8) as usize);
    let points = format!("M{0} {y}H{1}{teeth}H{0}q-5 0 -5 -5V{2}q0 -5 5 -5Z", x + 5, at.right(), y + 5);
    svg.path(&points, look);
}

/// A crash.
pub fn cross(svg: &mut Svg, x: i64, y: i64) {
    let points = format!("M{} {}l10 10m0 -10l-10 10", x - 5, y - 5);
    svg.path(&points, r##"fill="none" stroke="#c81e1e" stroke-width="2.6" stroke-linecap="round""##);
}

/// A restart: a triangle that points to what comes.
pub fn triangle(svg: &mut Svg, x: i64, y: i64) {
    let points = format!("M{} {}l10 6l-10 6Z", x - 4, y - 6);
    svg.path(&points, r##"fill="#1a7f37" stroke="#1a7f37" stroke-width="1.5" stroke-linejoin="round""##);
}

fn draw_servers(svg: &mut Svg, scene: &Scene, top: i64) {
    let middle = top + SERVERS / 2;
    svg.text(MARGIN, middle + 5, r#"class="row""#, "servers");
    svg.line((LEFT, middle), (scene.axis.right, middle), r##"stroke="#e3e6ea" stroke-width="1.5""##);
    for turn in server_turns(scene.history) {
        let (x, mark) = (scene.axis.x(turn.time), if turn.back { triangle } else { cross });
        svg.open(&turn.words());
        mark(svg, x, middle);
        svg.text(x + 11, middle - 5, r#"class="small""#, &turn.name());
        svg.close();
    }
}
