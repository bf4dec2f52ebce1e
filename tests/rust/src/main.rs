//! The library, through its C interface, against documents 01 and 02 by their definitions (model.rs): random histories with refusals among them, damaged tables,
//! damaged bids files of both versions. `differential [SEED [CALLS]]`; a difference stops it and prints the seed of the history, which as SEED shows it at once.

mod bids;
mod calls;
mod closest;
mod desk;
mod edge;
mod ffi;
mod files;
mod join;
mod model;
mod optional;
mod order;
mod rng;
mod withdraw;

use calls::{History, Outcomes, Tally};
use rng::Rng;
use std::panic;

/// What is the same in each run.
fn edges() {
    edge::all_items();
    edge::each_m();
    edge::list_lengths();
    edge::figure_one();
    edge::one_by_one();
    edge::sixty_four_bits(1);
    edge::sixty_four_bits(3);
    edge::greatest_cost();
    edge::last_number();
    optional::shared_slot();
    optional::precedence();
    optional::nothing_compulsory();
    optional::refusal_order();
    optional::few_places();
    optional::groups();
    order::figure_one();
    order::each_order();
    order::another_order();
    order::each_m();
    order::no_items();
    order::refusal_order();
    order::one_by_one();
    join::two_pools();
    join::zero_and_one();
    join::overlap();
    join::refusal_order();
    join::sixty_four_bits();
    join::deepest();
    join::last_number();
    closest::figure_one();
    closest::equals();
    closest::zero_and_one();
    closest::longest();
    closest::sixty_four_bits();
    closest::refusal_order();
    closest::last_number();
    withdraw::model();
    withdraw::three_become_one();
    withdraw::refusal_order();
    withdraw::makes_room();
    withdraw::longest();
    withdraw::last_number();
    bids::example();
    bids::each_bit();
    bids::each_length();
    bids::limits();
    bids::longest();
    bids::wide_sites();
    bids::refusal_order();
}

/// Each number that was said, and how often.
fn said(outcomes: &Outcomes) -> String {
    let said: Vec<String> = (0..outcomes.len()).filter(|&i| outcomes[i] > 0).map(|i| format!("{i}: {}", outcomes[i])).collect();
    said.join(", ")
}

fn main() {
    let mut args = std::env::args().skip(1).map(|a| a.parse::<u64>().expect("a number"));
    let first = args.next().unwrap_or(1);
    let most = args.next().unwrap_or(120_000);
    edges();
    let (mut all, mut seed) = (Tally::NONE, first);
    while all.calls < most {
        let run = panic::catch_unwind(|| {
            let mut history = History::new(Rng(seed));
            history.run();
            let mut tally = history.tally;
            bids::some_files(&mut Rng(!seed), &mut tally);
            withdraw::some_tables(&mut Rng(seed.rotate_left(32)), &mut tally);
            tally
        });
        match run {
            Ok(tally) => all.add(&tally),
            Err(_) => {
                eprintln!("a difference, seed {seed}");
                std::process::exit(1);
            }
        }
        seed += 1;
    }
    let files: u64 = all.files.iter().flatten().sum();
    println!("{} calls in {} histories, and {files} on bids files: no difference (seeds {first} to {})", all.calls, seed - first, seed - 1);
    println!("outcomes (0: answered): {}", said(&all.outcomes));
    println!("of joins: {}; {} answered for two answers above 1", said(&all.joins), all.joined);
    println!("of closest: {}; {} with the difference 0, {} the first of several as close", said(&all.closest), all.kept, all.tied);
    println!(
        "of withdrawals: {}; {} withdrew packages, {} withdrew none and made room, {} covers were found again with no node made",
        said(&all.withdrawals),
        all.shortened,
        all.freed,
        all.again
    );
    bids::CALLS.iter().zip(&all.files).for_each(|(call, outcomes)| println!("of {call}: {}", said(outcomes)));
    println!("of calls of any kind on weeks read: {}", said(&all.lent));
    println!("of the files read {} weeks were covered, {} of them with optional slots and a timetable", all.covered, all.open);
}
