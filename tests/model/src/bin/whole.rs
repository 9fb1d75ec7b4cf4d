//! Reads a scenario file on standard input and performs each scenario as one run of all its clocks.
//! Prints the records, `end K S`, then `leaps L read R` (the leap count and the inputs read).

use plain_clock::run;
use plain_clock::scenario::{print_outcome, read_file, Scenario};
use std::io::Read;

fn main() {
    let mut text = Vec::new();
    std::io::stdin().read_to_end(&mut text).expect("standard input");
    let mut printed = String::new();
    for scenario in read_file(&text) {
        perform(scenario, &mut printed);
    }
    print!("{printed}");
}

fn perform(mut scenario: Scenario, printed: &mut String) {
    let n = u64::from(scenario.clocks);
    if scenario.tape_number != 0 {
        print_outcome(&scenario.world, 0, scenario.tape_number, printed);
        return;
    }
    let outcome = run(&mut scenario.world, n, None);
    print_outcome(&scenario.world, scenario.world.state.clock, outcome.number, printed);
    printed.push_str(&format!("leaps {} read {}\n", outcome.leaps, outcome.inputs_read));
}
