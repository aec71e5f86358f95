// PROGRAM ENGINE FILE solves the instance in a file by an engine, and writes the answer in the second form.
#[macro_use]
mod kit;

fn main() {
    use mcf_solver::{BlockSize, Choice, EngineChoice, Form, FromReader, IntoWriter, Kind, PricingChoice};
    let words: std::vec::Vec<_> = std::env::args().collect();
    let engine = match words[1].as_str() {
        "cancel" => EngineChoice::Cancel,
        "simplex" => EngineChoice::Simplex,
        "scaling" => EngineChoice::Scaling,
        "fast" => EngineChoice::Fast,
        "sap" => EngineChoice::Sap,
        _ => EngineChoice::Auto,
    };
    let choice = Choice { engine, pricing: PricingChoice::Block, block: BlockSize::standard(), form: Form::Two };
    let file = std::fs::File::open(&words[2]).unwrap();
    let (mut source, mut sink) = (FromReader::new(file), IntoWriter::new(kit::StdOut));
    let kind = mcf_solver::run(kit::prelude::Global, &mut source, &mut sink, choice);
    std::process::exit(match kind {
        Ok(Kind::Flow) => 0,
        Ok(Kind::Blocked) => 1,
        Ok(Kind::Refused) => 2,
        Err(_) => 3,
    })
}
