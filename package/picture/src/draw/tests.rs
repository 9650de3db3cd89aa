//! Pictures are well formed, say what they must, and no text stands on another.

use super::look::{code_width, tag_width, text_width};
use super::picture;
use crate::history::{Crash, History, Party, Restart};
use crate::host;
use crate::samples::{any_record, board_record, Draws};
use crate::search::search;

fn drawn(history: &History, title: Option<&str>) -> String {
    let svg = picture(history, &search(history).unwrap(), title);
    well_formed(&svg).unwrap_or_else(|why| panic!("{why}: {svg}"));
    svg
}

fn of(record: &str) -> History {
    host::history(record, Some(vec![0]), vec![2, 0, 0]).unwrap()
}

/// A tag of XML without its brackets: its name, and whether it opens, closes or stands alone.
fn tag(text: &str) -> Result<(&str, bool, bool), String> {
    let closes = text.starts_with('/');
    let alone = text.ends_with('/');
    let inner = text.trim_matches('/');
    let name = inner.split(' ').next().unwrap_or("");
    let mut rest = inner[name.len()..].trim();
    while !rest.is_empty() {
        let (key, after) = rest.split_once("=\"").ok_or(format!("no attribute: {rest}"))?;
        let (value, after) = after.split_once('"').ok_or(format!("an open value: {rest}"))?;
        plain(value)?;
        if key.is_empty() || !key.chars().all(|c| c.is_ascii_alphanumeric() || "-:".contains(c)) {
            return Err(format!("no name of an attribute: {key}"));
        }
        rest = after.trim();
    }
    Ok((name, closes, alone))
}

/// Text between tags, or a value.
fn plain(text: &str) -> Result<(), String> {
    let entities = ["amp;", "lt;", "gt;", "quot;", "#39;"];
    let known = |after: &str| entities.iter().any(|entity| after.starts_with(entity));
    let good = text.split('&').skip(1).all(known) && !text.contains(['<', '>']);
    let control = text.chars().any(|c| c < ' ' && c != '\n');
    if good && !control {
        Ok(())
    } else {
        Err(format!("bad text: {text}"))
    }
}

/// Tags are in pairs, one within the other, below a single one; attributes and texts are plain.
fn well_formed(xml: &str) -> Result<(), String> {
    let mut rest = xml.split_once("?>\n").ok_or("no head")?.1;
    let (mut open, mut roots) = (vec![], 0);
    while let Some((text, after)) = rest.split_once('<') {
        plain(text)?;
        let (inner, after) = after.split_once('>').ok_or("an open tag")?;
        let (name, closes, alone) = tag(inner)?;
        roots += (open.is_empty() && !closes) as usize;
        if closes && open.pop() != Some(name) {
            return Err(format!("no pair: {name}"));
        }
        if !closes && !alone {
            open.push(name);
        }
        rest = after;
    }
    if open.is_empty() && roots == 1 && rest.trim().is_empty() {
        Ok(())
    } else {
        Err(format!("left open: {open:?}, {roots} roots"))
    }
}

#[test]
fn the_checker_refuses_what_is_not_xml() {
    let wrong =
        ["<a>", "<a></b>", "<a/><b/>", "<a x=\"1/>", "<a x=1/>", "<a>&b</a>", "<a>></a>", "<a/>x<", ""];
    for xml in wrong {
        assert!(well_formed(&format!("<?xml?>\n{xml}")).is_err(), "{xml}");
    }
    assert_eq!(well_formed("<?xml?>\n<a x=\"1\" y-z=\"\"><b/>&amp;<c></c></a>\n"), Ok(()));
}

/// What a text takes up: from left to right, and its line.
struct Text {
    left: i64,
    right: i64,
    y: i64,
    content: String,
}

/// A text as it is read.
fn read(escaped: &str) -> String {
    let pairs = [("&lt;", "<"), ("&gt;", ">"), ("&quot;", "\""), ("&#39;", "'"), ("&amp;", "&")];
    pairs.iter().fold(escaped.to_string(), |text, (from, to)| text.replace(from, to))
}

fn value<'a>(element: &'a str, key: &str) -> &'a str {
    let start = format!(" {key}=\"");
    element.split_once(&start).and_then(|(_, after)| after.split_once('"')).map_or("", |(value, _)| value)
}

fn texts(svg: &str) -> Vec<Text> {
    let text = |line: &str| {
        let (element, content) = line.split_once('>').unwrap();
        let content = read(content.strip_suffix("</text>").unwrap());
        let class = value(element, "class").split(' ').next().unwrap();
        let width = match class {
            "code" => code_width(&content),
            "tag" | "time" | "mark" => tag_width(&content),
            "title" => text_width(&content, 19),
            "bad" => text_width(&content, 17),
            "row" => text_width(&content, 13),
            "small" => text_width(&content, 11),
            _ => text_width(&content, 12),
        };
        let shift = if ["time", "mark"].contains(&class) { width / 2 } else { 0 };
        let left = value(element, "x").parse::<i64>().unwrap() - shift;
        Text { left, right: left + width, y: value(element, "y").parse().unwrap(), content }
    };
    svg.lines().filter(|line| line.starts_with("<text ")).map(text).collect()
}

/// No two texts stand on one another, and all are within the picture.
fn apart(svg: &str) {
    let texts = texts(svg);
    let size = |key| value(svg, key).parse::<i64>().unwrap();
    for (place, one) in texts.iter().enumerate() {
        assert!(one.left >= 0 && one.right <= size("width") && one.y <= size("height"), "{}", one.content);
        for other in &texts[place + 1..] {
            let beside = one.right <= other.left || other.right <= one.left;
            let above = (one.y - other.y).abs() >= 12;
            assert!(beside || above, "`{}` and `{}`", one.content, other.content);
        }
    }
}

/// Every label of a bar ends before its bar does; a group has one bar and its texts.
fn within_bars(svg: &str) {
    for group in svg.split("<g>").skip(1) {
        let group = group.split_once("</g>").unwrap().0;
        let bar = group.lines().find(|line| line.starts_with("<rect "));
        let Some(bar) = bar.filter(|bar| value(bar, "height") == "24") else { continue };
        let right = value(bar, "x").parse::<i64>().unwrap() + value(bar, "width").parse::<i64>().unwrap();
        assert!(texts(group).iter().all(|text| text.right <= right), "{group}");
    }
}

#[test]
fn typical_histories_are_readable() {
    let mut draws = Draws::new(3);
    for clients in [1, 2, 4, 4, 4, 9, 16] {
        let history = of(&board_record(&mut draws, clients, 30));
        let svg = drawn(&history, None);
        assert!(svg.contains("order that fits") && !svg.contains("no order fits"));
        apart(&svg);
        within_bars(&svg);
    }
}

#[test]
fn whatever_operations_show_there_is_a_picture() {
    let mut draws = Draws::new(4);
    for _ in 0..200 {
        let svg = drawn(&of(&any_record(&mut draws)), None);
        apart(&svg);
        within_bars(&svg);
    }
}

#[test]
fn a_history_without_an_order_says_so() {
    let svg = drawn(&of("begin 1 read\nend 1 read 1 1 77\n"), None);
    assert!(svg.contains(r#"class="bad">no order fits</text>"#) && svg.contains("nobody wrote"));
    assert!(!svg.contains("number 1 of the order"));
    let two = "begin 1 write aa\nbegin 2 write bb\nend 1 written 1 1\nend 2 written 1 2\nbegin 3 read\n";
    let svg = drawn(&of(&(two.to_string() + "end 3 read 1 2 bb\n")), None);
    assert!(svg.contains(">no order fits<") && svg.contains("rising tag order"));
    let svg = drawn(&of(&(two.to_string() + "end 3 read 1 1 aa\n")), None);
    assert!(!svg.contains("no order fits"));
}

#[test]
fn crashes_ranks_and_open_ends_are_drawn() {
    let mut history = of(
        "begin 1 write aa\nbegin 2 write bb\nbegin 3 read\nend 3 read 1 1 aa\nbegin 3 write -\nend 3 spent\n",
    );
    let crash = |time, party| Crash { time, party };
    history.crashes = vec![
        crash(7, Party::Client(1)),
        crash(8, Party::Server(2)),
        crash(9, Party::Server(12)),
        crash(10, Party::Client(5)),
    ];
    let svg = drawn(&history, None);
    for part in [
        ">client 1<",
        ">rank 2<",
        ">client 5<",
        ">servers<",
        ">server 2<",
        ">server 12<",
        "client 1 crashes at event 7",
        ">write aa<",
        ">unended<",
        ">read 1 1 aa<",
        ">write empty<",
        ">spent<",
        "spent: in no order",
    ] {
        assert!(svg.contains(part), "{part}");
    }
    apart(&svg);
}

/// Server 3 crashes and comes back three times, server 16 once. All of it is named in turn, and a picture without
/// restarts has no triangle.
#[test]
fn servers_come_back_as_often_as_they_crash() {
    let mut history = of("begin 1 read\nend 1 read 0 0 00\n");
    history.crashes = [(3, 3), (4, 16), (6, 3), (9, 3)]
        .map(|(time, server)| Crash { time, party: Party::Server(server) })
        .to_vec();
    let plain = drawn(&history, None);
    history.restarts =
        [(5, 3), (7, 3), (8, 16), (1000, 3)].map(|(time, server)| Restart { time, server }).to_vec();
    let svg = drawn(&history, None);
    apart(&svg);
    let turns =
        svg.lines().filter_map(|line| line.strip_prefix("<g><title>server ")?.strip_suffix("</title>"));
    let due = [
        "3 crashes at event 3",
        "16 crashes at event 4",
        "3 restarts at event 5",
        "3 crashes at event 6",
        "3 restarts at event 7",
        "16 restarts at event 8",
        "3 crashes at event 9",
        "3 restarts at event 1000",
    ];
    assert_eq!(turns.collect::<Vec<_>>(), due);
    let count = |svg: &str, part: &str| svg.matches(part).count();
    assert_eq!((count(&svg, ">server 3<"), count(&svg, ">server 16<"), count(&svg, ">1000<")), (6, 2, 1));
    assert_eq!((count(&svg, "l10 6l-10 6Z"), count(&plain, "l10 6l-10 6Z")), (5, 0), "one in the legend");
    assert!(svg.contains(">restart: goes on") && !plain.contains("restart"));
}

#[test]
fn nothing_at_all_is_a_picture_too() {
    let svg = drawn(&History::default(), None);
    assert!(svg.contains("nothing begins"));
    apart(&svg);
}

#[test]
fn a_title_may_be_any_text() {
    let title = "a <b> & \"c\" 'd' \u{1} é ".to_string() + &"long ".repeat(60);
    apart(&drawn(&of("begin 1 read\n"), Some(&title)));
    drawn(&of(""), Some(""));
}
