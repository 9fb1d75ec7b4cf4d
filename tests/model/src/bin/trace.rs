//! Prints the state after each clock of one scenario of a file on standard input; argument: its number, from 1.

use plain_clock::scenario::{read_file, single_clocks};
use plain_clock::{State, Turn, World};
use std::io::Read;
use std::process::ExitCode;

fn main() -> ExitCode {
    let mut text = Vec::new();
    std::io::stdin().read_to_end(&mut text).expect("standard input");
    let mut scenarios = read_file(&text);
    let number = std::env::args().nth(1).and_then(|text| text.parse::<usize>().ok());
    let Some(scenario) = number.and_then(|number| scenarios.get_mut(number.checked_sub(1)?)) else {
        eprintln!("usage: trace number, from 1 to the number of scenarios in standard input");
        return ExitCode::from(2);
    };
    let (done, number) = single_clocks(scenario, print_world);
    println!("end {done} {number}");
    ExitCode::SUCCESS
}

fn print_world(world: &World) {
    print_cpu(&world.state);
    print_peripherals(&world.state);
    println!(" in {} out {}", world.read, world.written);
}

fn print_cpu(state: &State) {
    let (a, x, y, sp, p, pc) = (state.a, state.x, state.y, state.sp, state.p, state.pc);
    let due = format!("{}{}", u8::from(state.reset_due), u8::from(state.nmi_due));
    let waiting = state.waiting.map_or("none".to_string(), |byte| format!("{:04X}={:02X}", byte.address, byte.value));
    print!(
        "{:5} PC {pc:04X} A {a:02X} X {x:02X} Y {y:02X} SP {sp:02X} P {p:02X} w {} waiting {waiting} due {due}",
        state.clock, state.wait
    );
}

fn print_peripherals(state: &State) {
    let turn = if state.turn == Turn::B { 'B' } else { 'C' };
    print!(" ports {:02X?} ext {:09X} last {:09X}", state.ports, state.external, state.last);
    print!(" CA {:04X}/{:04X}", state.counter_a, state.latch_a);
    print!(" CB {:04X}/{:04X}/{:04X}{turn}", state.counter_b, state.latch_b, state.latch_c);
    print!(" IFR {:02X} IER {:02X} MCR {:02X}", state.ifr, state.ier, state.mcr);
    print!(
        " SCCR {:02X} SCSR {:02X} TD {:02X} RD {:02X}",
        state.sccr, state.scsr, state.data_sent, state.data_received
    );
    let (tx, rx) = (&state.transmitter, &state.receiver);
    print!(" TX {} {} {:03X}", tx.bits_left, tx.phase, tx.register);
    print!(" RX {} {} {} {:03X}", rx.sub_interval, rx.half, rx.bits_left, rx.register);
}
