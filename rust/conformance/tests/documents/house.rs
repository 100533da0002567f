//! The picture of the house shows what `crates.txt` says: a box for each crate, and arrows that lead
//! from each crate to those that it names, directly or through others.

use super::tree::text;
use std::collections::{BTreeMap, BTreeSet};

/// The picture, as it is drawn.
const PICTURE: &str = "docs/house.svg";

/// How the picture writes an arrow between two names.
const ARROW: &str = "&#45;&gt;";

/// What each crate of the repository names, the kit's libraries aside. A name may stand before what
/// the crate is built as.
fn named(list: &str) -> BTreeMap<String, BTreeSet<String>> {
    let lines = list.lines().map(|line| line.split('#').next().unwrap_or_default());
    let all: BTreeMap<String, BTreeSet<String>> = lines
        .filter_map(|line| line.split_once(':'))
        .map(|(name, others)| {
            let name = name.split_whitespace().next().unwrap_or_default();
            (name.into(), others.split_whitespace().map(String::from).collect())
        })
        .collect();
    let known: BTreeSet<String> = all.keys().cloned().collect();
    all.into_iter().map(|(name, others)| (name, &others & &known)).collect()
}

/// The arrows from each box of a picture.
fn drawn(picture: &str) -> BTreeMap<String, BTreeSet<String>> {
    let mut arrows: BTreeMap<String, BTreeSet<String>> = BTreeMap::new();
    let titles = picture.lines().filter_map(|line| line.strip_prefix("<title>"));
    for title in titles.filter_map(|rest| rest.strip_suffix("</title>")).skip(1) {
        let (from, to) = title.split_once(ARROW).unwrap_or((title, ""));
        let others = arrows.entry(from.into()).or_default();
        if !to.is_empty() {
            others.insert(to.into());
        }
    }
    arrows
}

/// What is reached from a crate by one or more arrows.
fn reached(arrows: &BTreeMap<String, BTreeSet<String>>, from: &str) -> BTreeSet<String> {
    let mut found = BTreeSet::new();
    let mut left: Vec<&String> = arrows[from].iter().collect();
    while let Some(next) = left.pop() {
        if found.insert(next.clone()) {
            left.extend(&arrows[next]);
        }
    }
    found
}

/// What is wrong with a picture of these crates.
fn wrong(list: &str, picture: &str) -> Vec<String> {
    let (crates, arrows) = (named(list), drawn(picture));
    if !crates.keys().eq(arrows.keys()) {
        return vec![format!("crates {:?}, boxes {:?}", crates.keys(), arrows.keys())];
    }
    let mut found = Vec::new();
    for (name, others) in &crates {
        let (drawn, reached) = (&arrows[name], reached(&arrows, name));
        found.extend(drawn.difference(others).map(|other| format!("{name} does not name {other}")));
        found.extend(others.difference(&reached).map(|other| format!("no way {name} to {other}")));
    }
    found
}

#[test]
fn the_picture_shows_the_crates_and_what_they_name() {
    assert_eq!(wrong(&text("crates.txt"), &text(PICTURE)), Vec::<String>::new());
}

#[test]
fn a_picture_that_differs_is_told() {
    let list = "# a house\nlow:\nmiddle: low\nhigh: low middle io\n";
    let boxes = |arrows: &[&str]| {
        let names = ["house", "low", "middle", "high"].iter().chain(arrows);
        names.map(|name| format!("<title>{name}</title>\n")).collect::<String>()
    };
    let good = boxes(&["middle&#45;&gt;low", "high&#45;&gt;middle"]);
    assert_eq!(wrong(list, &good), Vec::<String>::new());
    assert_eq!(wrong(list, &boxes(&["high&#45;&gt;middle"])).len(), 2);
    assert_eq!(wrong(list, &format!("{good}<title>middle&#45;&gt;high</title>\n")).len(), 1);
    assert_eq!(wrong("low:\n", &good).len(), 1);
}
