//! What a plain copy is asked: bench/plain_copy.sh has the words. Files are in the ASCII form of AIGER, in order, as
//! `bench/match_beside_abc.sh --write` writes them.

use crate::account_check::check;
use crate::account_core::{Ban, PairableGraphs, Step};
use crate::account_file::put_log_line;
use crate::ask_core::{self, Answer as Answered};
use crate::ban_book::BanBook;
use crate::circuits::{Gate, Lit};
use crate::claim_core::{Claim, Shape, of_claim, of_match};
use crate::cnf_core::{Log, Stop};
use crate::fact_tests::FactBook;
use crate::match_guess::{Effort, Guesser, SearchStart};
use crate::match_search::{Found, decide, search};
use crate::net_core::{Graph, Graphs, Matching, Side};
use crate::oracle_core::{Compared, Oracle};
use crate::prelude::{Global, Items, Vec};
use crate::query_core::Ledger;
use crate::sim_signature::Supports;
use std::error::Error;
use std::io;

/// As many lines as `npnp match` learns by default (`check_steps::DEFAULT_BUDGET`).
const BUDGET: u64 = 1_000_000_000;

type Answer = Result<(), Box<dyn Error>>;

pub fn main() -> Answer {
    let words: std::vec::Vec<String> = std::env::args().skip(1).collect();
    let words: std::vec::Vec<&str> = words.iter().map(String::as_str).collect();
    match words[..] {
        ["guess", first, second, seed] => on_pair(first, second, seed, guess),
        ["search", first, second, seed] => on_pair(first, second, seed, |graphs, seed| {
            look(graphs, seed, |book, bans, ledger| {
                search(Global, graphs, book, bans, seed, ledger)
            })
        }),
        ["decide", first, second, seed] => on_pair(first, second, seed, |graphs, seed| {
            look(graphs, seed, |book, bans, ledger| {
                decide(Global, graphs, book, bans, &SearchStart { seed, candidates: &[] }, ledger)
            })
        }),
        ["ask", first, second, output, value, budget] => on_pair(first, second, "0", |graphs, _| {
            ask_output(graphs, output.parse()?, value == "1", budget.parse()?)
        }),
        ["matching", first, second, seed, file] => {
            let matching = std::fs::read_to_string(file)?;
            on_pair(first, second, seed, |graphs, seed| {
                prove(graphs, seed, &matching)
            })
        }
        ["check", first, second, account] => check_account(first, second, account),
        ["claims", netlist, rounds] => claims(netlist, rounds.parse()?),
        _ => Err(
            "plain guess|search|decide FIRST SECOND SEED, plain matching FIRST SECOND SEED FILE, \
             plain ask FIRST SECOND OUTPUT VALUE BUDGET, plain check FIRST SECOND ACCOUNT, or plain claims FILE ROUNDS"
                .into(),
        ),
    }
}

/// Reads two circuits and a seed, and asks something of them.
fn on_pair(
    first: &str,
    second: &str,
    seed: &str,
    ask: impl Fn(&PairableGraphs, u64) -> Answer,
) -> Answer {
    let first = graph_in(&std::fs::read_to_string(first)?)?;
    let second = graph_in(&std::fs::read_to_string(second)?)?;
    let graphs = Graphs::new(&first, &second);
    let graphs = PairableGraphs::new(&graphs).ok_or("the circuits have other numbers of ports")?;
    ask(&graphs, seed.parse()?)
}

/// Checks an account.
fn check_account(first: &str, second: &str, account: &str) -> Answer {
    let first = graph_in(&std::fs::read_to_string(first)?)?;
    let second = graph_in(&std::fs::read_to_string(second)?)?;
    let graphs = Graphs::new(&first, &second);
    let account = std::fs::read(account)?;
    let begun = std::time::Instant::now();
    let verdict = check(Global, &graphs, &account);
    println!("{verdict:?} {:.3} s", begun.elapsed().as_secs_f64());
    Ok(())
}

/// Asks for n rounds, of each output and each input that it reaches through gates, whether the output never falls where the
/// input goes up, as `workbench claims` does.
fn claims(netlist: &str, rounds: u32) -> Answer {
    let graph = graph_in(&std::fs::read_to_string(netlist)?)?;
    let graphs = Graphs::new(&graph, &graph);
    let supports = Supports::new(Global, &graph).map_err(refused)?;
    let (mut asked, mut hold) = (0, 0);
    for _ in 0..rounds {
        for output in 0..graph.outputs().len() as u32 {
            for input in (0..graph.inputs()).filter(|input| supports.reaches(output, *input)) {
                asked += 1;
                hold += u32::from(holds(&graphs, output, input)?);
            }
        }
    }
    println!("asked {asked} hold {hold}");
    Ok(())
}

fn holds(graphs: &Graphs, output: u32, input: u32) -> Result<bool, Box<dyn Error>> {
    let claim = Claim {
        side: Side::First,
        output,
        shape: Shape::Up(input),
    };
    let query = of_claim(Global, graphs, &claim).map_err(refused)?;
    let mut ledger = Ledger::new(Global, BUDGET);
    let answer = ask_core::ask(Global, graphs, &query, &mut ledger).map_err(refused)?;
    Ok(matches!(answer, Answered::Refuted(_)))
}

/// The circuit of a file whose signals are numbered in order, so that its literals are the circuit's.
fn graph_in(text: &str) -> Result<Graph, Box<dyn Error>> {
    let mut lines = text.lines();
    let header = numbers_in(lines.next().and_then(|line| line.strip_prefix("aag ")))?;
    let [_, inputs, 0, outputs, gates] = header[..] else {
        return Err("a header with latches, or without five numbers".into());
    };
    for place in 0..inputs {
        expect(
            numbers_in(lines.next())? == [2 * (1 + place)],
            "inputs aren't in order",
        )?;
    }
    let mut ends = Vec::new(Global);
    for _ in 0..outputs {
        ends.0
            .extend(numbers_in(lines.next())?.into_iter().map(Lit));
    }
    let mut ands = Vec::new(Global);
    for place in 0..gates {
        let line = numbers_in(lines.next())?;
        expect(
            line.len() == 3 && line[0] == 2 * (1 + inputs + place),
            "gates aren't in order",
        )?;
        ands.0.push(Gate {
            a: Lit(line[1]),
            b: Lit(line[2]),
        });
    }
    Graph::new(inputs, ands, ends).ok_or("the gates aren't in order".into())
}

fn numbers_in(line: Option<&str>) -> Result<std::vec::Vec<u32>, Box<dyn Error>> {
    let words = line.ok_or("a line is missing")?.split(' ');
    words.map(|word| Ok(word.parse()?)).collect()
}

fn expect(holds: bool, or: &str) -> Answer {
    if holds { Ok(()) } else { Err(or.into()) }
}

/// The first phase alone: prints a matching that may be a match, or that there is none.
fn guess(graphs: &PairableGraphs, seed: u64) -> Answer {
    let mut guesser = Guesser::new(Global, graphs, seed).map_err(refused)?;
    match guesser
        .guess(Global, graphs, Effort::Whole)
        .map_err(refused)?
    {
        Some(matching) => print_port_table("guess", &matching),
        None => println!("nothing"),
    }
    Ok(())
}

/// Has a match looked for, and tells what was found.
fn look(
    graphs: &PairableGraphs,
    seed: u64,
    find: impl Fn(&mut FactBook, &mut BanBook, &mut Ledger) -> Result<Found, Stop>,
) -> Answer {
    let mut book = FactBook::new(Global, graphs.graphs(), seed).map_err(refused)?;
    let mut bans = BanBook::new(Global);
    let mut ledger = Ledger::new(Global, BUDGET);
    let found = find(&mut book, &mut bans, &mut ledger);
    tell(found.map_err(refused)?, bans.bans());
    Ok(())
}

/// What there is instead of an answer, as an error of the program.
fn refused(cause: impl std::fmt::Debug) -> io::Error {
    io::Error::other(format!("{cause:?}"))
}

/// Compares the outputs by a matching: a line for each port, inputs before outputs, with the place where it goes and 1 where it
/// is inverted.
fn prove(graphs: &PairableGraphs, seed: u64, matching: &str) -> Answer {
    let mut ways = Vec::new(Global);
    for line in matching.lines() {
        let way = numbers_in(Some(line))?;
        expect(way.len() == 2, "a line of the matching hasn't two numbers")?;
        ways.0.push((way[0], way[1] == 1));
    }
    let inputs = graphs.first().inputs() as usize;
    expect(
        ways.len() == inputs + graphs.first().outputs().len(),
        "the matching has another length",
    )?;
    let outputs = Items(ways.0.split_off(inputs));
    let matching = Matching {
        inputs: Items(ways.0),
        outputs,
    };
    expect(
        matching.check_shape(inputs as u32, matching.outputs.len() as u32),
        "the matching isn't a bijection",
    )?;
    let mut book = FactBook::new(Global, graphs.graphs(), seed).map_err(refused)?;
    let mut ledger = Ledger::new(Global, BUDGET);
    let mut written = Written::default();
    let begun = std::time::Instant::now();
    for output in 0..matching.outputs.len() as u32 {
        let compared = book.compare(Global, &matching, output, &mut ledger);
        match compared.map_err(refused)? {
            Compared::Same(first, second) => {
                written.add(&first)?;
                written.add(&second)?;
            }
            Compared::Differs(_) => {
                println!("differs at output {output}");
                return Ok(());
            }
        }
    }
    let (learned, seconds) = (ledger.learned(), begun.elapsed().as_secs_f64());
    let Written { lines, bytes } = written;
    println!("match learned {learned} lines {lines} bytes {bytes} {seconds:.2} s");
    Ok(())
}

/// How many lines logs have, and how many bytes an account has for them.
#[derive(Default)]
struct Written {
    lines: usize,
    bytes: usize,
}

impl Written {
    fn add(&mut self, log: &Log) -> Answer {
        let mut text = Vec::new(Global);
        for line in log.lines.iter() {
            put_log_line(line, &mut text).map_err(refused)?;
        }
        self.lines += log.lines.len();
        self.bytes += text.len();
        Ok(())
    }
}

/// Prints a match's port table, or that there is none, and how many bans were made, by what shows them.
fn tell(found: Found, bans: &[Ban]) {
    match found {
        Found::Match(matching, _) => print_port_table("match", &matching),
        Found::None(_) => print_bans(bans),
    }
}

/// Asks whether an output of the first circuit can have the value where that of the second has not, ports in place.
fn ask_output(graphs: &PairableGraphs, output: u32, value: bool, budget: u64) -> Answer {
    let in_place = |count: usize| Items((0..count as u32).map(|place| (place, false)).collect());
    let matching = Matching {
        inputs: in_place(graphs.first().inputs() as usize),
        outputs: in_place(graphs.first().outputs().len()),
    };
    expect(
        (output as usize) < matching.outputs.len(),
        "there is no such output",
    )?;
    let graphs = graphs.graphs();
    let query = of_match(Global, graphs, &matching, output, value).map_err(refused)?;
    match ask_core::ask(Global, graphs, &query, &mut Ledger::new(Global, budget)) {
        Ok(Answered::Vector(vector)) => {
            let digit = |bit: &bool| if *bit { '1' } else { '0' };
            println!("vector {}", vector.iter().map(digit).collect::<String>());
        }
        Ok(Answered::Refuted(log)) => println!("refuted {}", log.lines.len()),
        Err(Stop::Spent(learned)) => println!("spent {learned}"),
        Err(Stop::Memory) => return Err("out of memory".into()),
    }
    Ok(())
}

fn print_bans(bans: &[Ban]) {
    let count = |is: fn(&Step) -> bool| bans.iter().filter(|ban| is(&ban.step)).count();
    println!("none");
    println!(
        "{} vectors, {} mismatches, {} tallies, {} covers",
        count(|step| matches!(step, Step::Vector { .. })),
        count(|step| matches!(step, Step::Mismatch { .. })),
        count(|step| matches!(step, Step::Tally { .. })),
        count(|step| matches!(step, Step::Cover { .. })),
    );
}

/// Prints a port table as `npnp match` does, without names.
fn print_port_table(answer: &str, matching: &Matching) {
    println!("{answer}");
    for (kind, ways) in [("input", &matching.inputs), ("output", &matching.outputs)] {
        for (place, (to, is_inverted)) in ways.iter().enumerate() {
            let not = if *is_inverted { "not " } else { "" };
            println!("{kind} {place} = {not}{kind} {to}");
        }
    }
}
