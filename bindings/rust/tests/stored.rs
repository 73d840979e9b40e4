//! Charts with n_theta that an earlier release stored, taken to their ends. bindings/stored has them, and says what each line holds.

use smyrilox::{Chart, Counts, Ending};
use std::collections::HashMap;

type Lines = HashMap<String, String>;

fn stored() -> Vec<Lines> {
    let path = concat!(env!("CARGO_MANIFEST_DIR"), "/../stored/charts.txt");
    let text = std::fs::read_to_string(path).unwrap();
    let mut charts: Vec<Lines> = Vec::new();
    for (word, values) in text.lines().filter(|l| !l.starts_with('#')).filter_map(|l| l.split_once(' ')) {
        if word == "chart" {
            charts.push(Lines::new());
        }
        charts.last_mut().unwrap().insert(word.to_string(), values.to_string());
    }
    assert!(charts.len() >= 24);
    charts
}

fn bytes(text: &str) -> Vec<u8> {
    (0..text.len() / 2).map(|i| u8::from_str_radix(&text[2 * i..2 * i + 2], 16).unwrap()).collect()
}

fn numbers(text: &str) -> Vec<u64> {
    text.split(' ').map(|n| n.parse().unwrap()).collect()
}

/// The end's picture, counts, and all of it as it is saved.
fn ended(chart: &Chart, lines: &Lines) {
    let name = &lines["chart"];
    let mut picture = vec![9; lines["picture"].len() / 2];
    chart.draw(&mut picture).unwrap();
    assert_eq!(picture, bytes(&lines["picture"]), "{name}");
    let c = numbers(&lines["counts"]);
    let counts = Counts { yes: c[0], no: c[1], uncertain: c[2], given_up: c[3], queued: c[4], share: c[5] };
    assert_eq!(chart.counts().unwrap(), counts, "{name}");
    let end = Chart::load(&bytes(&lines["end-saved"])).unwrap();
    assert_eq!(chart.save(), end.save(), "{name}");
    assert!(chart.is_finished(), "{name}");
}

#[test]
fn each_runs_to_its_end() {
    for lines in stored() {
        let mut chart = Chart::load(&bytes(&lines["saved"])).unwrap();
        let ran = chart.run(&bytes(&lines["tape"]), lines["budget"].parse().unwrap()).unwrap();
        let (ending, answer) = lines["run"].split_once(' ').unwrap();
        assert_eq!(ran.ending, if ending == "limit" { Ending::Limit } else { Ending::Done }, "{}", lines["chart"]);
        assert_eq!(vec![0, ran.steps, ran.evaluations, ran.tape as u64], numbers(answer), "{}", lines["chart"]);
        ended(&chart, &lines);
    }
}

#[test]
fn each_steps_to_its_end() {
    for lines in stored() {
        let mut chart = Chart::load(&bytes(&lines["saved"])).unwrap();
        let tape = bytes(&lines["tape"]);
        let (mut at, mut evaluations) = (0, 0);
        while !chart.is_finished() {
            let count = chart.children().unwrap().len();
            let step = chart.step(&tape[at..at + count]).unwrap();
            at += step.verdicts;
            evaluations += step.evaluations;
        }
        assert_eq!((at, evaluations), (tape.len(), numbers(lines["run"].split_once(' ').unwrap().1)[2]), "{}", lines["chart"]);
        ended(&chart, &lines);
    }
}

#[test]
fn each_is_what_was_stored() {
    for lines in stored() {
        let saved = bytes(&lines["saved"]);
        let chart = Chart::load(&saved).unwrap();
        let record = numbers(&lines["record"]);
        assert_eq!(record[2] & 2, 2, "{}", lines["chart"]);
        assert_eq!((chart.size().0 as u64, chart.size().1 as u64), (record[0], record[1]), "{}", lines["chart"]);
        assert_eq!((chart.steps(), chart.queued()), (record[3], record[4] - record[3]), "{}", lines["chart"]);
        let again = chart.save();
        assert_eq!(Chart::load(&again).unwrap().save(), again, "{}", lines["chart"]);
    }
}
