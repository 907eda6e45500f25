//! What a browser adds to the picture: the parts that say what is pointed at, their style, and the script. All of it is hidden until
//! the script runs, so that a viewer without scripts shows the picture and no control that does nothing.

use crate::insert::Insert;
use crate::legend::counted;
use crate::look::of_owner;
use crate::shown::Shown;
use crate::svg::{rect, Place};
use crate::tree::Tree;
use crate::window::Searched;
use dustmap::Owner;

const STYLE: &str = include_str!("page.css");
const SCRIPT: &str = include_str!("page.js");

/// What a reader of the screen says of the map when it gets the focus.
const HELP: &str = "Map. Arrow keys go from record to record, Home to the first, End to the last.";

/// The name of the page, what it shows in a sentence, and how its parts look.
pub fn head(tree: &Tree, shown: &Shown) -> String {
    let records = counted(tree.records().len(), "record", "records");
    let map = format!("Map of {records}{}, height {}", owners_told(tree), tree.height);
    let more = match shown {
        Shown::Nothing => String::new(),
        Shown::Window(searched) => window_told(searched),
        Shown::Insert(insert) => insert_told(insert),
    };
    format!(
        "<title id=\"name\">dustmap</title>\n<desc id=\"told\">{map}{more}.</desc>\n<style>\n{STYLE}</style>\n"
    )
}

/// How many records each owner has, where they have owners.
fn owners_told(tree: &Tree) -> String {
    let told = |owner: &Option<Owner>| {
        owner.map(|_| format!("{}{}", tree.count_of(*owner), of_owner(*owner)))
    };
    let each: Vec<String> = tree.owners().iter().filter_map(told).collect();
    if each.is_empty() {
        return String::new();
    }
    format!(", {}", each.join(" and "))
}

fn window_told(s: &Searched) -> String {
    let [low_x, low_y, high_x, high_y] = s.window.to_words();
    let disc = s.disc.as_ref().map(|disc| format!(" of {disc}")).unwrap_or_default();
    format!(
        ", and the window {low_x}, {low_y} to {high_x}, {high_y}{disc}: {} found {} it, {} opened",
        counted(s.found.len(), "record", "records"),
        s.mode,
        counted(s.opened.len(), "node", "nodes")
    )
}

fn insert_told(i: &Insert) -> String {
    let [low_x, low_y, high_x, high_y] = i.rect.to_words();
    format!(
        ", and the insert of {low_x}, {low_y} to {high_x}, {high_y}: it {}: {}",
        i.needs(),
        i.answer()
    )
}

/// The glass lies over the map and takes all that the pointer does; the ring is around what is pointed at, and the answer is
/// a paper with the words.
pub fn glass(sheet: Place, pen: f64) -> String {
    // Two dots' radius: no gap is left between the places that the script looks at.
    let near = 7.0 * pen;
    let look = format!(
        "id=\"glass\" class=\"needs-script\" display=\"none\" fill-opacity=\"0\" tabindex=\"0\" role=\"application\" \
         aria-roledescription=\"map\" aria-label=\"{HELP}\" data-near=\"{near:.1}\""
    );
    let hidden = Place { x: 0.0, y: 0.0, width: 0.0, height: 0.0 };
    let ring = "id=\"ring\" display=\"none\" rx=\"4\" fill=\"none\" stroke=\"#111111\" stroke-width=\"2.5\"";
    let paper = "id=\"paper\" rx=\"4\" fill=\"#ffffff\" stroke=\"#111111\" stroke-width=\"1.5\"";
    let words = "id=\"said\" y=\"4\" role=\"status\" aria-live=\"polite\" font-size=\"13\" fill=\"#222222\"";
    format!(
        "{}{}<g id=\"answer\" display=\"none\">\n{}<text {words}></text>\n</g>\n",
        rect(hidden, ring),
        rect(sheet, &look),
        rect(hidden, paper)
    )
}

/// The script, as text that XML does not take for markup.
pub fn script() -> String {
    format!("<script><![CDATA[\n{SCRIPT}]]></script>\n")
}
