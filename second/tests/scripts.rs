//! Scripts: reading them, running them, and the examples kept beside the program.

use second::script::{parse, run};
use second::style::STYLES;
use second::{check, damage, generate, Edition};

fn output(text: &str) -> String {
    run(&parse(text).expect("a script"))
}

fn first_lines(text: &str, count: usize) -> Vec<String> {
    output(text).lines().take(count).map(str::to_string).collect()
}

#[test]
fn a_small_script() {
    let text = "# nothing yet\nblank 1\nfound 2\n\ninsert 7 0 0 10 10\nsearch 10 10 20 20\n";
    let lines = first_lines(text, 4);
    assert_eq!(lines, ["result 0", "answer 0 0 0 0", "answer 0 1 0 1", "found 7 0 0 10 10"]);
    let last = output(text).lines().last().unwrap().to_string();
    assert!(last.starts_with("pool 1 1 1 1 0 0 0 0 1 1 0 0 10 10 7 0 "));
}

#[test]
fn refused_calls() {
    let request = "search 0 0 1 1\n";
    assert_eq!(first_lines(&format!("pool 1 2 3\n{request}"), 1), ["result 1"]);
    assert_eq!(first_lines(&format!("blank 0\n{request}"), 1), ["result 1"]);
    assert_eq!(first_lines(&format!("blank 1\nwork 49\n{request}"), 1), ["result 1"]);
    assert_eq!(first_lines(&format!("blank 1\nanswers 2\n{request}"), 1), ["result 9"]);
    assert_eq!(first_lines("blank 1\nrequest 7 0 0 0 0 0 0 0 0 0\n", 1), ["result -1"]);
    let zeros = vec!["0"; 50].join(" ");
    assert_eq!(first_lines(&format!("pool {zeros}\n{request}"), 1), ["result 2"]);
}

#[test]
fn lines_that_cannot_be_read() {
    for text in ["insert 1 2 3 4", "search 0 0 0 x", "blank", "turn 5", "pool 1 2147483648"] {
        assert!(parse(text).is_err(), "{text}");
    }
    for text in ["inside 0 0 1", "inside 7 0 0 1 1", "enclosing", "enclosing 0 0 1 y"] {
        assert!(parse(text).is_err(), "{text}");
    }
}

#[test]
fn generated_scripts_are_the_same_each_time() {
    for (_, style) in STYLES {
        let text = generate::script(style, 5, 6, 120);
        assert_eq!(text, generate::script(style, 5, 6, 120));
        assert_ne!(text, generate::script(style, 6, 6, 120));
        let script = parse(&text).expect("a script");
        assert_eq!(script.requests.len(), 120);
        assert!(run(&script).starts_with("result 0\n"));
    }
}

/// Damaged pools are refused 2 or not, as `check` says, and 1 where word 0 says another edition: all
/// three happen.
#[test]
fn damaged_pools() {
    for edition in [Edition::One, Edition::Two] {
        let mut results = [0; 3];
        for seed in 1..=200 {
            let number = check(&damage::damaged_pool_of(edition, seed, 6));
            let due = format!("result {number}");
            assert_eq!(first_lines(&damage::script(edition, seed, 6), 1), [due], "seed {seed}");
            results[number as usize] += 1;
        }
        assert!(results.iter().all(|&count| count > 0), "{results:?}");
    }
}

/// A script kept beside the program, and what is due.
macro_rules! kept {
    ($name:literal) => {
        (
            $name,
            include_str!(concat!("../examples/", $name, ".script")),
            include_str!(concat!("../examples/", $name, ".out")),
        )
    };
}

#[test]
fn the_examples_kept() {
    let kept = [
        kept!("two-levels"),
        kept!("two-levels-split"),
        kept!("two-levels-pool"),
        kept!("delete-refused-7"),
        kept!("update-refused-7"),
        kept!("mixed"),
        kept!("modes"),
        kept!("roads"),
        kept!("roads-upright"),
        kept!("roads-redrawn"),
        kept!("roads-crossing"),
        kept!("roads-blocks"),
        kept!("roads-far"),
        kept!("shared"),
    ];
    for (name, script, due) in kept {
        assert_eq!(output(script), due, "{name}");
    }
}
