//! The legend beside the map: what the colours stand for, what the window found and opened, and what the insert needs.

use crate::asked::{shortest, Disc};
use crate::insert::Insert;
use crate::look::{colour, new_record, of_owner, Group, EDGE, FOUND, FULL};
use crate::shown::Shown;
use crate::svg::{circle, rect, text, Place};
use crate::tree::{Node, Tree};
use crate::window::Searched;
use dustmap::{Found, Owner, Rect};
use std::iter::once;

const PLAIN: &str = "font-size=\"13\" fill=\"#333333\"";
const SMALL: &str = "font-size=\"11\" fill=\"#595959\"";
const BOLD: &str = "font-size=\"13\" font-weight=\"bold\" fill=\"#222222\"";
const INDENT: f64 = 34.0;

/// How wide a line with a box to tick is.
const WIDE: f64 = 318.0;

/// How many characters of small numbers fit on a line, and how many lines of them are written at most.
const LINE: usize = 34;
const MOST_LINES: usize = 8;

/// A legend in progress: lines, one below the other.
struct Legend {
    x: f64,
    y: f64,
    out: String,
}

impl Legend {
    fn heading(&mut self, words: &str) {
        self.y += 12.0;
        self.line(words, "font-size=\"15\" font-weight=\"bold\" fill=\"#222222\"", 0.0);
    }

    fn line(&mut self, words: &str, look: &str, indent: f64) {
        self.out += &text((self.x + indent, self.y + 12.0), look, words);
        self.y += 22.0;
    }

    /// A sample of a layer and what it stands for, with a box to tick: the script makes it a switch for the layer.
    fn switch(&mut self, layer: &str, look: &str, words: &str) {
        self.switch_with(layer, &self.boxed(look), words);
    }

    /// The same for a sample of any shape.
    fn switch_with(&mut self, layer: &str, shape: &str, words: &str) {
        let (x, y) = (self.x - 20.0, self.y);
        let whole = Place { x: x - 4.0, y: y - 3.0, width: WIDE, height: 20.0 };
        let tick = format!("{} {} l3.5 4 l6 -8", x + 2.5, y + 7.0);
        self.out += &format!("<g class=\"switch\" data-shows=\"{layer}\">\n");
        self.out += &rect(whole, "class=\"edge\" rx=\"3\" fill=\"#ffffff\" fill-opacity=\"0\"");
        self.out += "<g class=\"needs-script\" display=\"none\">\n";
        self.out += &rect(
            Place { x, y, width: 14.0, height: 14.0 },
            "rx=\"2\" fill=\"#ffffff\" stroke=\"#333333\" stroke-width=\"1.2\"",
        );
        self.out += &format!(
            "<path class=\"tick\" d=\"M{tick}\" fill=\"none\" stroke=\"#222222\" stroke-width=\"2\"/>\n</g>\n"
        );
        self.sample(shape, words);
        self.out += "</g>\n";
    }

    /// A sample and what it stands for.
    fn sample(&mut self, shape: &str, words: &str) {
        self.out += shape;
        self.line(words, &format!("class=\"words\" {PLAIN}"), INDENT);
    }

    /// A box as a sample, on the line that is next.
    fn boxed(&self, look: &str) -> String {
        rect(Place { x: self.x, y: self.y, width: 24.0, height: 14.0 }, look)
    }

    /// The root and the chosen leaf within it as a sample, as they are drawn; where the root is that leaf, a box.
    fn nested(&self, insert: &Insert) -> String {
        let height = insert.path.len() as i32;
        let root = if insert.splits_root() { FULL } else { colour(height) };
        let leaf = if insert.run > 0 { FULL } else { colour(1) };
        let within = Place { x: self.x + 5.0, y: self.y + 4.0, width: 14.0, height: 6.0 };
        match height {
            1 => self.boxed(&marked(leaf)),
            _ => {
                let outer =
                    format!("rx=\"3\" fill=\"none\" stroke=\"{root}\" stroke-width=\"2.2\"");
                self.boxed(&outer) + &rect(within, &marked(leaf))
            }
        }
    }

    /// A circle as a sample, likewise.
    fn ring(&self, look: &str) -> String {
        circle((self.x + 12.0, self.y + 7.0), 7.0, look)
    }
}

/// The legend, and where it ends on the sheet.
pub fn legend(tree: &Tree, shown: &Shown, x: f64) -> (String, f64) {
    let mut legend = Legend { x, y: EDGE - 12.0, out: String::new() };
    legend.heading("The map");
    legend.line(
        &format!("{}, height {}", counted(tree.records().len(), "record", "records"), tree.height),
        PLAIN,
        0.0,
    );
    legend.line(&format!("{} of {} slots in use", tree.nodes.len(), tree.slots), PLAIN, 0.0);
    for group in shown.groups(tree).into_iter().filter(|group| !group.found) {
        legend.switch(group.layer(), &group.look(), &records_line(tree, shown, group.owner));
    }
    legend.heading("The nodes");
    for level in (1..=tree.height).rev() {
        let look =
            format!("rx=\"3\" fill=\"none\" stroke=\"{}\" stroke-width=\"2\"", colour(level));
        legend.switch(&format!("level-{level}"), &look, &level_line(tree, shown, level));
    }
    legend.line("each level is drawn a little wider", SMALL, 0.0);
    match shown {
        Shown::Nothing => (),
        Shown::Window(searched) => {
            window_lines(&mut legend, searched);
            for owner in tree.owners() {
                found_lines(&mut legend, searched, *owner);
            }
        }
        Shown::Insert(insert) => insert_lines(&mut legend, insert),
    }
    help(&mut legend);
    (legend.out, legend.y)
}

/// The records of an owner, or all; where there is a window, those that it does not find.
fn records_line(tree: &Tree, shown: &Shown, owner: Option<Owner>) -> String {
    match (shown.window(), owner) {
        (Some(s), _) => {
            let others = tree.count_of(owner) - s.found_of(owner).len();
            format!("{} not found", records_of(others, owner))
        }
        (None, None) => "the records".to_string(),
        (None, Some(_)) => records_of(tree.count_of(owner), owner),
    }
}

/// As in "3 records of owner 2".
fn records_of(count: usize, owner: Option<Owner>) -> String {
    format!("{}{}", counted(count, "record", "records"), of_owner(owner))
}

/// What one can do with the page; only where the script runs.
fn help(legend: &mut Legend) {
    legend.out += "<g class=\"needs-script\" display=\"none\">\n";
    legend.heading("To look closer");
    for words in [
        "Point at a record or tap it: its number and sides.",
        "Tab to the map, then arrow keys: from record to record.",
        "Tick a box: show or hide what stands beside it.",
    ] {
        legend.line(words, SMALL, 0.0);
        legend.y -= 5.0;
    }
    legend.out += "</g>\n";
}

/// How many nodes a level has, and how many of them the search opens.
fn level_line(tree: &Tree, shown: &Shown, level: i32) -> String {
    let nodes: Vec<&Node> = tree.nodes.iter().filter(|node| node.level == level).collect();
    let what = match (level == tree.height, level) {
        (true, 1) => "the root, a leaf".to_string(),
        (true, _) => format!("level {level}, the root"),
        (false, 1) => format!("level 1, {} leaves", nodes.len()),
        (false, _) => format!("level {level}, {}", counted(nodes.len(), "node", "nodes")),
    };
    match shown.window() {
        Some(searched) => {
            let opened = nodes.iter().filter(|node| searched.opens(node)).count();
            format!("{what}; {opened} opened")
        }
        None => what,
    }
}

fn window_lines(legend: &mut Legend, shown: &Searched) {
    legend.heading("The window");
    let window =
        format!("fill=\"none\" stroke=\"{FOUND}\" stroke-width=\"2\" stroke-dasharray=\"6 4\"");
    let Rect { low_x, low_y, high_x, high_y } = shown.window;
    legend.switch("window", &window, "the window");
    legend.line(&format!("from {low_x}, {low_y}"), PLAIN, INDENT);
    legend.line(&format!("to {high_x}, {high_y}"), PLAIN, INDENT);
    if let Some(disc) = &shown.disc {
        disc_lines(legend, disc);
    }
    let words = format!("{} opened", counted(shown.opened.len(), "node", "nodes"));
    legend.sample(&legend.boxed(&marked(colour(1))), &words);
}

/// What the window finds of an owner's records, or of all.
fn found_lines(legend: &mut Legend, shown: &Searched, owner: Option<Owner>) {
    let (group, found) = (Group { owner, found: true }, shown.found_of(owner));
    let words = format!("{} found", records_of(found.len(), owner));
    legend.switch(group.layer(), &group.look(), &words);
    // The mode goes below the count. A search is of the window, so what it finds may lie beside a disc.
    let mode = format!("those {} the window", shown.mode);
    for words in once(mode).chain(number_lines(&found)) {
        legend.line(&words, SMALL, INDENT);
        legend.y -= 6.0;
    }
}

/// The disc that the window is around.
fn disc_lines(legend: &mut Legend, disc: &Disc) {
    let ring = legend.ring(&format!("fill=\"none\" stroke=\"{FOUND}\" stroke-width=\"1.5\""));
    legend.switch_with("disc", &ring, "the disc and its centre");
    for (what, number) in [("x", disc.x), ("y", disc.y), ("radius", disc.radius)] {
        legend.line(&format!("{what} {}", shortest(number)), PLAIN, INDENT);
    }
}

/// The insert: the way that it would go, the run of full nodes, the slots, and how it would be answered.
fn insert_lines(legend: &mut Legend, insert: &Insert) {
    legend.heading("The insert");
    let Rect { low_x, low_y, high_x, high_y } = insert.rect;
    legend.switch("insert", &new_record(), "the new rectangle");
    legend.line(&format!("from {low_x}, {low_y}"), PLAIN, INDENT);
    legend.line(&format!("to {high_x}, {high_y}"), PLAIN, INDENT);
    legend.sample(&legend.nested(insert), "the path to the chosen leaf:");
    for words in path_lines(insert) {
        legend.line(&words, SMALL, INDENT);
        legend.y -= 6.0;
    }
    legend.y += 6.0;
    run_lines(legend, insert);
    legend.line(&insert.needs(), PLAIN, INDENT);
    legend.line(&insert.answer(), BOLD, INDENT);
}

/// "slots 3, 1": those of the path, the root's first.
fn path_lines(insert: &Insert) -> Vec<String> {
    let slots: Vec<String> = insert.path.iter().map(usize::to_string).collect();
    let words = format!("{} {}", if slots.len() == 1 { "slot" } else { "slots" }, slots.join(", "));
    wrapped(words.split(' ').map(str::to_string))
}

/// The run of full nodes, each of which would be split.
fn run_lines(legend: &mut Legend, insert: &Insert) {
    if insert.run == 0 {
        legend.line("the chosen leaf is not full", PLAIN, INDENT);
        return;
    }
    let words = format!("{} in the run", counted(insert.run, "full node", "full nodes"));
    legend.sample(&legend.boxed(&marked(FULL)), &words);
    if insert.splits_root() {
        legend.line("it includes the root: one more", PLAIN, INDENT);
    }
}

/// How a node looks that the search opens, or that is on the path.
fn marked(colour: &str) -> String {
    format!(
        "rx=\"3\" fill=\"{colour}\" fill-opacity=\"0.15\" stroke=\"{colour}\" stroke-width=\"2.2\""
    )
}

/// The words on as many lines as they take.
fn wrapped(words: impl Iterator<Item = String>) -> Vec<String> {
    let mut lines = vec![String::new()];
    for word in words {
        if lines[lines.len() - 1].len() + word.len() > LINE {
            lines.push(String::new());
        }
        let last = lines.len() - 1;
        lines[last] += &format!("{word} ");
    }
    lines
}

/// The numbers found, in found order, as many as have room.
fn number_lines(found: &[Found]) -> Vec<String> {
    let mut lines = wrapped(found.iter().map(|record| record.number.to_string()));
    if lines.len() > MOST_LINES {
        lines.truncate(MOST_LINES);
        let written: usize = lines.iter().map(|line| line.split_whitespace().count()).sum();
        lines.push(format!("and {} more", found.len() - written));
    }
    lines
}

pub fn counted(count: usize, one: &str, many: &str) -> String {
    format!("{count} {}", if count == 1 { one } else { many })
}
