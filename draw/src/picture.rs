//! The picture: covers by level, records with their numbers, the window and its disc or the rectangle of an insert, a scale bar and the
//! legend.

use crate::labels::Labels;
use crate::legend::{counted, legend};
use crate::look::{colour, new_record, of_owner, Group, EDGE, FOUND, FULL};
use crate::page;
use crate::shown::{Mark, Shown};
use crate::svg::{circle, layer, line, rect, text, titled, Place, Scale};
use crate::tree::{joint, Held, Node, Record, Tree};
use dustmap::Rect;

const SHEET: (f64, f64) = (1280.0, 860.0);
const LEGEND: f64 = 300.0;

/// Between the map and its legend: room for the boxes to tick.
const GUTTER: f64 = 36.0;

/// With more records than this, the numbers of those that a window or an insert is about would be lost among all the others.
const CROWD: usize = 200;

/// And with more found in such a crowd, their numbers would cover them.
const MANY_FOUND: usize = 60;

/// How far the cross at the centre of a disc goes to each side.
const CROSS: f64 = 5.0;

/// With more nodes than this, the pen is a finer one: they would lie on those beside them.
const MANY_NODES: f64 = 100.0;

pub fn draw(tree: &Tree, shown: &Shown) -> String {
    let most_wide = SHEET.0 - LEGEND - GUTTER - 2.0 * EDGE;
    let mut scale = Scale::fit(extent(tree, shown), EDGE, EDGE, most_wide, SHEET.1 - 2.0 * EDGE);
    scale.pen = pen(tree);
    let sheet = Place { x: EDGE, y: EDGE, width: scale.width, height: scale.height };
    let width = sheet.width + LEGEND + GUTTER + 2.0 * EDGE;
    let (legend, legend_ends) = legend(tree, shown, sheet.x + sheet.width + GUTTER);
    let height = (sheet.height + 2.0 * EDGE).max(legend_ends + EDGE);
    let mut out = format!(
        "<svg xmlns=\"http://www.w3.org/2000/svg\" viewBox=\"0 0 {width:.0} {height:.0}\" width=\"{width:.0}\" \
         height=\"{height:.0}\" font-family=\"DejaVu Sans, Helvetica, Arial, sans-serif\" \
         aria-labelledby=\"name\" aria-describedby=\"told\">\n"
    );
    out += &page::head(tree, shown);
    out += &rect(Place { x: 0.0, y: 0.0, width, height }, "fill=\"#ffffff\"");
    out += &rect(sheet, "fill=\"#fbfaf6\" stroke=\"#d8d4c8\"");
    out += &covers(tree, shown, &scale);
    out += &records(tree, shown, &scale, sheet);
    out += &window(shown, &scale);
    out += &disc(shown, &scale);
    out += &insert(shown, &scale);
    out += &bar(&scale);
    out += &page::glass(sheet, scale.pen);
    out += &legend;
    out + &page::script() + "</svg>\n"
}

/// Half as thick where there are sixteen times as many nodes.
fn pen(tree: &Tree) -> f64 {
    (MANY_NODES / tree.nodes.len() as f64).powf(0.25).min(1.0)
}

/// All records, and the window or the rectangle of the insert; where there is nothing, a square metre around the origin.
fn extent(tree: &Tree, shown: &Shown) -> Rect {
    let covers = tree.nodes.iter().filter_map(|node| node.cover);
    let all = covers.chain(shown.rect()).reduce(joint);
    all.unwrap_or(Rect::from_words([-500, -500, 500, 500]))
}

/// The covers, highest level first; in each level, those marked last, so that they lie on top.
fn covers(tree: &Tree, shown: &Shown, scale: &Scale) -> String {
    let of_level = |level: i32| {
        let mut nodes: Vec<&Node> = tree.nodes.iter().filter(|node| node.level == level).collect();
        nodes.sort_by_key(|node| shown.mark(node));
        let shapes: String =
            nodes.iter().filter_map(|node| Some(cover(node, node.cover?, shown, scale))).collect();
        let look = format!(
            "data-holds=\"nodes\" fill=\"{0}\" fill-opacity=\"0\" stroke=\"{0}\"",
            colour(level)
        );
        layer(&format!("level-{level}"), &look, &shapes)
    };
    (1..=tree.height).rev().map(of_level).collect()
}

/// Each level is drawn a little wider than the one below, since tight covers share edges.
fn cover(node: &Node, tight: Rect, shown: &Shown, scale: &Scale) -> String {
    let (look, thick) = outline(node, shown.mark(node));
    let (wider, thick) = (1.5 + 3.5 * f64::from(node.level), thick * scale.pen);
    let place = scale.place(&tight).wider_by(wider * scale.pen * scale.pen);
    let entries = counted(node.entries.len(), "entry", "entries");
    let Node { slot, level, .. } = node;
    let words =
        format!("slot {slot}, level {level}{}: {}; {entries}", shown.said(node), sides(&tight));
    titled(&words, &rect(place, &format!("rx=\"3\" stroke-width=\"{thick:.2}\" {look}")))
}

/// How a node's outline looks, and how thick it is.
fn outline(node: &Node, mark: Mark) -> (String, f64) {
    // Only leaves are tinted: all that lies below a higher node would take its colour too.
    let tint = if node.level == 1 { "fill-opacity=\"0.12\"" } else { "" };
    match mark {
        Mark::Plain => ("stroke-opacity=\"0.9\"".to_string(), 1.5),
        Mark::Pale => ("stroke-opacity=\"0.6\"".to_string(), 1.1),
        Mark::Marked => (tint.to_string(), 2.2),
        Mark::Run => (format!("fill=\"{FULL}\" stroke=\"{FULL}\" {tint}"), 3.0),
    }
}

fn sides(rect: &Rect) -> String {
    let Rect { low_x, low_y, high_x, high_y } = rect;
    format!("{low_x}, {low_y} to {high_x}, {high_y}")
}

/// The records, those found on top; then the numbers.
fn records(tree: &Tree, shown: &Shown, scale: &Scale, sheet: Place) -> String {
    let mut all = tree.records();
    all.sort_by_key(|held| held.record);
    let found = |held: &Held| shown.window().is_some_and(|w| w.finds(&held.record));
    let members = |group: Group| -> Vec<&Held> {
        let is_member = |h: &&Held| h.record.owner == group.owner && found(h) == group.found;
        all.iter().filter(is_member).collect()
    };
    let mut groups: Vec<(Group, Vec<&Held>)> =
        shown.groups(tree).into_iter().map(|group| (group, members(group))).collect();
    let out: String = groups.iter().map(|(group, held)| shapes(*group, held, scale)).collect();
    if all.len() > CROWD {
        groups.iter_mut().for_each(|(_, held)| held.retain(|h| stands_out(h, shown)));
    }
    out + &numbers(&groups, scale, sheet)
}

/// The layer of a group.
fn shapes(group: Group, held: &[&Held], scale: &Scale) -> String {
    let found = if group.found { ", found" } else { "" };
    let look = format!("data-holds=\"records\" {} stroke-width=\"{:.2}\"", group.look(), scale.pen);
    let shapes: String = held.iter().map(|h| record(h, found, scale)).collect();
    layer(group.layer(), &look, &shapes)
}

/// Whether a record has its number in a crowd: a record that is found, if they are few, or one in the chosen leaf.
fn stands_out(held: &Held, shown: &Shown) -> bool {
    match shown {
        Shown::Nothing => true,
        Shown::Window(s) => s.found.len() <= MANY_FOUND && s.finds(&held.record),
        Shown::Insert(insert) => insert.path.last() == Some(&held.slot),
    }
}

/// A point is a dot, a line a line, all else a box.
fn record(held: &Held, said: &str, scale: &Scale) -> String {
    let Held { record: Record { owner, found: record }, slot } = held;
    let place = scale.place(&record.rect);
    let shape = match (place.width < 1.5, place.height < 1.5) {
        (true, true) => circle(
            place.middle(),
            3.2 * scale.pen,
            "fill-opacity=\"1\" stroke=\"#ffffff\" stroke-width=\"0.8\"",
        ),
        (false, false) => rect(place, ""),
        _ => {
            let to = (place.x + place.width, place.y + place.height);
            let look = format!("stroke-width=\"{:.2}\" stroke-linecap=\"round\"", 3.0 * scale.pen);
            line((place.x, place.y), to, &look)
        }
    };
    let name = format!("record {}{}", record.number, of_owner(*owner));
    let words = format!("{name}{said}: {}; leaf in slot {slot}", sides(&record.rect));
    titled(&words, &shape)
}

/// The numbers, those found first, since a number is left out where it has no room; a layer of them goes with that of its records.
fn numbers(groups: &[(Group, Vec<&Held>)], scale: &Scale, sheet: Place) -> String {
    let mut labels = Labels::new(sheet);
    let mut of = |(group, held): &(Group, Vec<&Held>)| -> String {
        let mut out = String::new();
        for Held { record: Record { found, .. }, .. } in held.iter().rev() {
            let words = found.number.to_string();
            if let Some(at) = labels.put(scale.place(&found.rect), &words) {
                out += &number(at, &words, group.found);
            }
        }
        if group.found && held.is_empty() {
            return out;
        }
        layer(group.layer(), "class=\"number\" aria-hidden=\"true\"", &out)
    };
    // the groups found are the last
    let mut layers: Vec<String> = groups.iter().rev().map(&mut of).collect();
    layers.reverse();
    layers.concat()
}

/// A pale rim keeps a number readable where lines cross it.
fn number(at: (f64, f64), words: &str, found: bool) -> String {
    let (colour, weight) = if found { ("#8f2f04", "bold") } else { ("#3c4753", "normal") };
    let look = format!(
        "font-size=\"11\" fill=\"{colour}\" font-weight=\"{weight}\" stroke=\"#fbfaf6\" stroke-width=\"2.5\" \
         paint-order=\"stroke\""
    );
    text(at, &look, words)
}

/// The window; one without area is made large enough to see.
fn window(shown: &Shown, scale: &Scale) -> String {
    let look =
        format!("fill=\"none\" stroke=\"{FOUND}\" stroke-width=\"2\" stroke-dasharray=\"8 5\"");
    shown
        .window()
        .map(|s| layer("window", "", &rect(scale.place(&s.window).at_least(12.0), &look)))
        .unwrap_or_default()
}

/// The disc that the window is around, and a cross at its centre: a dot there would look like a record.
fn disc(shown: &Shown, scale: &Scale) -> String {
    let Some(disc) = shown.window().and_then(|s| s.disc.as_ref()) else {
        return String::new();
    };
    let (x, y) = scale.point(disc.x, disc.y);
    let shapes = circle((x, y), scale.length(disc.radius), "")
        + &line((x - CROSS, y), (x + CROSS, y), "")
        + &line((x, y - CROSS), (x, y + CROSS), "");
    let look = format!("fill=\"none\" stroke=\"{FOUND}\" stroke-width=\"1.5\"");
    layer("disc", &look, &titled(&disc.to_string(), &shapes))
}

/// The rectangle of an insert; one without area is made large enough to see.
fn insert(shown: &Shown, scale: &Scale) -> String {
    let Shown::Insert(insert) = shown else {
        return String::new();
    };
    let shape = rect(scale.place(&insert.rect).at_least(12.0), "");
    let words = format!("the new rectangle: {}", sides(&insert.rect));
    layer("insert", &new_record(), &titled(&words, &shape))
}

/// The scale bar, in the lower left corner.
fn bar(scale: &Scale) -> String {
    let (length, on_sheet) = scale.bar();
    let (x, y) = (scale.left + 12.0, scale.top + scale.height - 12.0);
    let stroke = "stroke=\"#555555\" stroke-width=\"2\"";
    let ends = [x, x + on_sheet].map(|end| line((end, y - 4.0), (end, y + 4.0), stroke)).concat();
    let look = "font-size=\"11\" text-anchor=\"middle\" fill=\"#555555\"";
    let label = text((x + on_sheet / 2.0, y - 7.0), look, &metres(length));
    line((x, y), (x + on_sheet, y), stroke) + &ends + &label
}

fn metres(millimetres: f64) -> String {
    match millimetres {
        l if l >= 1e6 => format!("{} km", l / 1e6),
        l if l >= 1e3 => format!("{} m", l / 1e3),
        l => format!("{l} mm"),
    }
}
