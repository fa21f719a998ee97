//! Measures the calls of the static library. `README.md` says how to run it and
//! what it prints.

mod aims;
mod calls;
mod instructions;
mod processor;
mod rows;
mod stack;
mod table;
mod time;

fn main() {
    let arguments: Vec<String> = std::env::args().skip(1).collect();
    let arguments: Vec<&str> = arguments.iter().map(String::as_str).collect();
    match arguments[..] {
        [instructions::COUNTED, ref call @ ..] => instructions::make(call.first().copied()),
        ["--instructions", ref call @ ..] => {
            processor::print();
            instructions::print(call.first().copied());
        }
        ref call => {
            processor::print();
            table::print(call.first().copied());
            stack::print();
        }
    }
}
