//! vectors SEED COUNT: the named cases, then COUNT random questions, each with the Rust's answer, one a line, as
//! QUESTION = ANSWER; a named case has # NAME behind it.
use driver::random::Random;
use driver::{answer, cases, questions, read_number};
use std::io::Write;

/// Whether every number is finite and, unless it is the sum in a row, within 2^300.
fn within_limits(question: &str, answer: &str) -> bool {
    let within = |text: &str, limit: f64| {
        let numbers = text.split(|c: char| !c.is_ascii_hexdigit()).filter(|w| w.len() == 16);
        numbers.map(read_number).all(|x| x.abs() <= limit)
    };
    let is_row = question.split(' ').next().unwrap().contains("row");
    within(question, 2f64.powi(300)) && within(answer, if is_row { f64::MAX } else { 2f64.powi(300) })
}
fn main() {
    let numbers: Vec<u64> = std::env::args().skip(1).map(|a| a.parse().unwrap()).collect();
    let [seed, count] = numbers[..] else { panic!("vectors SEED COUNT") };
    let mut out = std::io::BufWriter::new(std::io::stdout().lock());
    for (name, question) in cases::named() {
        let answer = answer(&question);
        assert!(within_limits(&question, &answer), "{name}");
        writeln!(out, "{question} = {answer} # {name}").unwrap();
    }
    let mut random = Random::new(seed);
    for name in questions::round().into_iter().cycle().take(count as usize) {
        let mut asked = std::iter::repeat_with(|| random.question(name)).map(|q| (answer(&q), q));
        let (answer, question) = asked.find(|(a, q)| within_limits(q, a)).unwrap();
        writeln!(out, "{question} = {answer}").unwrap();
    }
}
