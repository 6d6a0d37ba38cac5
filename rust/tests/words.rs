//! The scripts look at their words before anything is built: a word that they do not know, or a number that is none, ends them
//! with one line and status 2.

use std::process::{Command, Output};

const SCRIPTS: [&str; 3] = ["./compare", "./speed", "./stack"];

fn ended(script: &str, words: &[&str]) -> Output {
    Command::new(script).args(words).output().expect("the script starts")
}

fn assert_refused(script: &str, words: &[&str], why: &str) {
    let output = ended(script, words);
    let said = String::from_utf8_lossy(&output.stderr);
    let name = script.replace("./", "rust/");
    assert_eq!(said, format!("{name}: {why}; --help shows the usage\n"), "{script} {words:?}");
    assert_eq!((output.status.code(), output.stdout.len()), (Some(2), 0), "{script} {words:?}");
}

#[test]
fn unknown_words_are_refused() {
    for script in SCRIPTS {
        for word in ["--quick", "quick", "", "-", "--", "--shor", "--short --seed", "*", "--stand-in", "--counted"] {
            assert_refused(script, &[word], &format!("there is no option '{word}'"));
        }
    }
    for script in ["./compare", "./stack"] {
        assert_refused(script, &["--short", "--seed", "7", "8"], "there is no option '8'");
        assert_refused(script, &["--no-counting"], "there is no option '--no-counting'");
    }
    assert_refused("./speed", &["--no-counting", "--short"], "there is no option '--short'");
}

#[test]
fn numbers_are_looked_at() {
    for words in [
        &["--seed"][..],
        &["--seed", ""],
        &["--images", "-1"],
        &["--states", "1e6"],
        &["--tasks", "four"],
        &["--seed", "1000000000000000000"],
    ] {
        for script in ["./compare", "./stack"] {
            assert_refused(script, words, &format!("{} takes a number of at most 18 digits", words[0]));
        }
    }
}

#[test]
fn the_stack_of_a_stand_in_is_not_measured() {
    let output = Command::new("./stack").env("GLIDECOTTON_STAND_IN", "1").output().expect("the script starts");
    let said = String::from_utf8_lossy(&output.stderr);
    assert!(said.starts_with("rust/stack: a stand-in has nothing to measure"), "{said}");
    assert_eq!((output.status.code(), output.stdout.len()), (Some(2), 0));
}

#[test]
fn help_is_the_usage() {
    for script in SCRIPTS {
        let output = ended(script, &["--help"]);
        let usage = format!("usage: {} [", script.replace("./", "rust/"));
        assert!(String::from_utf8_lossy(&output.stdout).starts_with(&usage), "{script}");
        assert_eq!((output.status.code(), output.stderr.len()), (Some(0), 0), "{script}");
    }
}
