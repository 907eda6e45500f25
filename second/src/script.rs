//! Text scripts: a pool and one batch, written as lines; and what comes of them.

use crate::call::{
    call_counting, Answer, Found, Request, DELETE, ENCLOSING, INSERT, INSIDE, SEARCH, UPDATE,
};
use crate::edition::{told, Edition};
use crate::events::Events;
use crate::pool::blank_pool_of;

/// A script as read. A length of none means: as long as its partner (the workspace as the
/// pool, the answer list as the request list).
#[derive(Clone, Debug, Default, PartialEq, Eq)]
pub struct Script {
    pub pool: Vec<i32>,
    pub work: Option<usize>,
    pub answers: Option<usize>,
    pub found: usize,
    pub owner: i32,
    pub requests: Vec<Request>,
}

/// Reads a script. An error names the line.
pub fn parse(text: &str) -> Result<Script, String> {
    let mut script = Script { found: 64, owner: 1, ..Script::default() };
    for (index, line) in text.lines().enumerate() {
        let line = line.trim();
        if line.is_empty() || line.starts_with('#') {
            continue;
        }
        take_line(&mut script, line).map_err(|why| format!("line {}: {why}", index + 1))?;
    }
    Ok(script)
}

fn take_line(script: &mut Script, line: &str) -> Result<(), String> {
    let (name, rest) = line.split_once(char::is_whitespace).unwrap_or((line, ""));
    match name {
        "blank" => script.pool = blank_line(rest)?,
        "pool" => script.pool = words(rest)?,
        "work" => script.work = length_or_same(rest)?,
        "answers" => script.answers = length_or_same(rest)?,
        "found" => script.found = one_length(rest)?,
        "owner" => [script.owner] = exactly(&words(rest)?)?,
        _ => script.requests.push(request(name, rest)?),
    }
    Ok(())
}

/// A request line by its name; `request` takes the ten words as they are.
fn request(name: &str, rest: &str) -> Result<Request, String> {
    let words = words(rest)?;
    match name {
        "insert" => exactly(&words).map(|[n, a, b, c, d]| Request::insert(n, [a, b, c, d])),
        "delete" => exactly(&words).map(|[n, a, b, c, d]| Request::delete(n, [a, b, c, d])),
        "update" => exactly(&words)
            .map(|[n, a, b, c, d, e, f, g, h]| Request::update(n, [a, b, c, d], [e, f, g, h])),
        "search" => exactly(&words).map(Request::search),
        "inside" => exactly(&words).map(Request::inside),
        "enclosing" => exactly(&words).map(Request::enclosing),
        "request" => exactly(&words).map(Request::from_words),
        _ => Err(format!("unknown line {name}")),
    }
}

/// `N`, or `N EDITION`; without an edition it is 1.
fn blank_line(rest: &str) -> Result<Vec<i32>, String> {
    let (slots, edition) = rest.trim().split_once(char::is_whitespace).unwrap_or((rest, "1"));
    let [edition] = exactly(&words(edition)?)?;
    let edition = told(edition, 0).ok_or_else(|| format!("no edition: {edition}"))?;
    Ok(blank_pool_of(edition, one_length(slots)?))
}

/// A blank pool of so many slots, of edition 1.
pub fn blank_pool(slots: usize) -> Vec<i32> {
    blank_pool_of(Edition::One, slots)
}

fn words(rest: &str) -> Result<Vec<i32>, String> {
    rest.split_whitespace().map(|w| w.parse().map_err(|_| format!("not a word: {w}"))).collect()
}

fn exactly<const K: usize>(words: &[i32]) -> Result<[i32; K], String> {
    words.try_into().map_err(|_| format!("{K} words wanted, {} given", words.len()))
}

fn one_length(rest: &str) -> Result<usize, String> {
    rest.trim().parse().map_err(|_| format!("not a length: {rest}"))
}

fn length_or_same(rest: &str) -> Result<Option<usize>, String> {
    if rest.trim() == "same" {
        return Ok(None);
    }
    one_length(rest).map(Some)
}

/// Runs a script as one call and prints what came of it.
pub fn run(script: &Script) -> String {
    let Script { requests, owner, .. } = script;
    let mut pool = script.pool.clone();
    let mut work = vec![0; script.work.unwrap_or(pool.len())];
    let mut answers = vec![Answer::default(); script.answers.unwrap_or(requests.len())];
    let mut found = vec![Found::default(); script.found];
    let mut events = Events::default();
    let result = call_counting(
        &mut pool,
        &mut work,
        requests,
        &mut answers,
        &mut found,
        *owner,
        &mut events,
    );
    let filled = places_filled(requests, &answers);
    let mut lines = vec![format!("result {result}")];
    lines.extend(answers.iter().map(answer_line));
    lines.extend(found[..filled].iter().map(found_line));
    lines.push(events.line());
    lines.push(pool_line(&pool));
    lines.join("\n") + "\n"
}

fn answer_line(answer: &Answer) -> String {
    let Answer { number, found, start, opened } = answer;
    format!("answer {number} {found} {start} {opened}")
}

fn found_line(place: &Found) -> String {
    let Found { number, low_x, low_y, high_x, high_y } = place;
    format!("found {number} {low_x} {low_y} {high_x} {high_y}")
}

/// The places that accepted searches filled: the sum of what they found.
fn places_filled(requests: &[Request], answers: &[Answer]) -> usize {
    let pairs = requests.iter().zip(answers);
    pairs.filter(|(r, a)| r.is_search() && a.number == 0).map(|(_, a)| a.found as usize).sum()
}

/// `pool w0 w1 ..`
pub fn pool_line(pool: &[i32]) -> String {
    let words: Vec<String> = pool.iter().map(i32::to_string).collect();
    format!("pool {}", words.join(" "))
}

/// A request as a script line.
pub fn request_line(request: &Request) -> String {
    let Request { kind, number, first, second } = request;
    let text = |words: &[i32]| words.iter().map(i32::to_string).collect::<Vec<_>>().join(" ");
    match *kind {
        INSERT => format!("insert {number} {}", text(first)),
        DELETE => format!("delete {number} {}", text(first)),
        UPDATE => format!("update {number} {} {}", text(first), text(second)),
        SEARCH => format!("search {}", text(first)),
        INSIDE => format!("inside {}", text(first)),
        ENCLOSING => format!("enclosing {}", text(first)),
        _ => format!("request {kind} {number} {} {}", text(first), text(second)),
    }
}
