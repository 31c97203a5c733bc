//! The stored stream, `crates/conform/stdin`: which cases it has, in which order, and their names.
//!
//! A case has a name, as `C17.tables.57`: its section, its family there, and its number among all cases of the family that
//! `limits` makes, stored or not. `data/stored.txt` says which of them are stored. A request adds a section behind all others, so
//! that no case moves.

use crate::generate::cases::case;
use crate::generate::words::Words;
use crate::generate::Random;
use crate::limits::{sections, Made, Sort, MOVED};
use crate::stream::{Case, LAST, STREAM_MARK};
use std::collections::{HashMap, HashSet};

const LIST: &str = include_str!("../data/stored.txt");

/// The family of a section's random cases; two numbers stand behind it in the list, the seed and how many there are.
const RANDOM: &str = "random";

pub struct Stored {
    pub name: String,
    pub case: Case,
}

/// The stored cases, in the order of the stream.
pub fn stored() -> Vec<Stored> {
    let made = named(sections());
    let mut all = Vec::new();
    for (section, family, numbers) in listed() {
        match family {
            RANDOM => all.extend(random(section, numbers[0] as u64, numbers[1])),
            _ => all.extend(numbers.iter().map(|number| {
                let name = format!("{section}.{family}.{number}");
                let case = made.get(&name).unwrap_or_else(|| panic!("no case {name}"));
                let case = case.clone();
                Stored { name, case }
            })),
        }
    }
    all
}

/// Every fixed case by its name.
pub fn named(sections: Vec<(&str, Vec<Made>)>) -> HashMap<String, Case> {
    let mut all = HashMap::new();
    for (section, made) in sections {
        let mut numbers = HashMap::new();
        for made in made {
            let number = numbers.entry(made.family).or_insert(0);
            *number += 1;
            all.insert(format!("{section}.{}.{number}", made.family), made.case);
        }
    }
    all
}

fn random(section: &str, seed: u64, count: usize) -> Vec<Stored> {
    // A request that makes other cases of a seed keeps these words for the section.
    let words = Words::ALL;
    let mut random = Random::new(seed);
    let operations: Vec<u8> = (1..=LAST).collect();
    let one = |number| Stored {
        name: format!("{section}.{RANDOM}.{number}"),
        case: case(&mut random, &operations, words),
    };
    (1..=count).map(one).collect()
}

/// Section, family and numbers of each line of the list. `3-7` are all numbers from 3 to 7.
fn listed() -> Vec<(&'static str, &'static str, Vec<usize>)> {
    let lines = LIST.lines().filter(|line| !line.starts_with('#'));
    let line = |line: &'static str| {
        let mut words = line.split_whitespace();
        let [section, family] = [(); 2].map(|()| words.next().expect("section and family"));
        let number = |text: &str| text.parse::<usize>().expect("a number");
        let range = |word: &str| match word.split_once('-') {
            Some((first, last)) => number(first)..=number(last),
            None => number(word)..=number(word),
        };
        (section, family, words.flat_map(range).collect())
    };
    lines.map(line).collect()
}

/// The bytes of a stream with these cases.
pub fn stream_of<'a>(cases: impl Iterator<Item = &'a Case>) -> Vec<u8> {
    let mut bytes = STREAM_MARK.to_vec();
    cases.for_each(|case| case.put(&mut bytes));
    bytes
}

// The rule by which a section's cases are chosen.

/// Among which cases a few are chosen, always of one operation and one number.
#[derive(Clone, Copy, PartialEq, Eq, Hash)]
enum Among {
    Sort(Sort),
    Family(&'static str),
    Section,
}

/// How many cases are stored, by the bytes that a case has at most together with its line: 8 of a sort, or 2; of the large ones 2
/// of a family, and one of each sort that has none by then; of the largest 1 of a section.
const MOST: [(usize, usize); 4] = [(300, 8), (1_000, 2), (LARGE, 2), (usize::MAX, 1)];
const LARGE: usize = 8_000;
/// So many of those that change one byte of a file, over all numbers that come.
const MOST_OF_A_BYTE: usize = 4;

/// The lines of the list for a section, by the rule. Cases may be added to them by hand.
pub fn choose(section: &str, made: &[Made]) -> String {
    let chosen = chosen(made);
    let mut families: Vec<&str> = made.iter().map(|made| made.family).collect();
    families.dedup();
    let mut text = String::new();
    for family in families {
        let of_family = (0..made.len()).filter(|&place| made[place].family == family);
        let numbers: Vec<usize> = of_family
            .enumerate()
            .filter(|(_, place)| chosen.contains(place))
            .map(|(number, _)| number + 1)
            .collect();
        for numbers in ranges(&numbers).chunks(20) {
            text += &format!("{section} {family} {}\n", numbers.join(" "));
        }
    }
    text
}

/// The places of the cases that are chosen.
fn chosen(made: &[Made]) -> HashSet<usize> {
    let mut all = HashSet::new();
    let mut of_bytes: HashMap<Sort, HashMap<u8, Vec<usize>>> = HashMap::new();
    let mut others: HashMap<(Among, u8, u8, usize), Vec<usize>> = HashMap::new();
    let mut sorts: HashMap<(Sort, u8), Vec<(usize, usize)>> = HashMap::new();
    for (place, made) in made.iter().enumerate() {
        let (number, bytes) = number_and_bytes(&made.case);
        let size = MOST.iter().position(|&(most, _)| bytes <= most);
        let size = size.expect("the last has no end");
        if made.sort.byte.is_some() {
            let of_byte = of_bytes.entry(made.sort).or_default();
            of_byte.entry(number).or_default().push(place);
            continue;
        }
        let among = match size {
            0 | 1 => Among::Sort(made.sort),
            2 => Among::Family(made.family),
            _ => Among::Section,
        };
        let key = (among, made.case.operation, number, size);
        others.entry(key).or_default().push(place);
        let of_sort = sorts.entry((made.sort, number)).or_default();
        of_sort.push((bytes, place));
    }
    for ((.., size), places) in others {
        all.extend(spread(&places, MOST[size].1));
    }
    for by_number in of_bytes.into_values() {
        let mut by_number: Vec<(u8, Vec<usize>)> = by_number.into_iter().collect();
        // Those that come seldom first: what they leave goes to the others.
        by_number.sort_by_key(|(number, places)| (places.len(), *number));
        let mut left = MOST_OF_A_BYTE;
        for turn in 0..by_number.len() {
            // Every number that is still to come has one at least.
            let some = spread(&by_number[turn].1, left.div_ceil(by_number.len() - turn));
            left -= some.len();
            all.extend(some);
        }
    }
    for of_sort in sorts.into_values() {
        let (bytes, shortest) = *of_sort.iter().min().expect("a case");
        let none = of_sort.iter().all(|(_, place)| !all.contains(place));
        if none && bytes <= LARGE && made[shortest].family != MOVED {
            all.insert(shortest);
        }
    }
    all
}

/// The number that a case comes to, and its bytes with its line.
fn number_and_bytes(case: &Case) -> (u8, usize) {
    let (answer, after) = case.work().expect("an operation that is built");
    let bytes = stream_of([case].into_iter()).len() - STREAM_MARK.len();
    (answer.number, bytes + answer.line().len() + after.len() + 1)
}

/// So many of these at most, the first and the last among them, at equal distances.
fn spread(places: &[usize], most: usize) -> Vec<usize> {
    match places.len() {
        count if count <= most => places.to_vec(),
        _ if most == 1 => vec![places[0]],
        count => (0..most)
            .map(|k| places[k * (count - 1) / (most - 1)])
            .collect(),
    }
}

/// Rising numbers, three or more in a row as one.
fn ranges(numbers: &[usize]) -> Vec<String> {
    let mut texts = Vec::new();
    let mut rest = numbers;
    while let Some(&first) = rest.first() {
        let row = (0..rest.len())
            .take_while(|&k| rest[k] == first + k)
            .count();
        match row {
            1 => texts.push(first.to_string()),
            2 => texts.extend([first.to_string(), (first + 1).to_string()]),
            _ => texts.push(format!("{first}-{}", first + row - 1)),
        }
        rest = &rest[row..];
    }
    texts
}
