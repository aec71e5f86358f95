// PROGRAM flow|pairs OPTIONS TABLES plans tables, as `mcfplan` does with these words.
#[macro_use]
mod kit;

use kit::prelude::{Global, Vec};
use mcf_answer_rows::TextKind;
use mcf_choice::{Choice, EngineChoice};
use mcf_decimal::{Mark, number};

// The words of the command line: options with their words, then tables.
struct Words {
    options: std::collections::HashMap<std::string::String, std::string::String>,
    tables: std::vec::Vec<std::vec::Vec<u8>>,
}

impl Words {
    fn new(mut words: std::env::Args) -> Words {
        let (mut options, mut tables) = (std::collections::HashMap::new(), std::vec::Vec::new());
        while let Some(word) = words.next() {
            match word.strip_prefix("--").map(|option| option.split_once('=').ok_or(option)) {
                Some(Ok((name, value))) => {
                    options.insert(name.into(), value.into());
                }
                Some(Err(name)) => {
                    options.insert(name.into(), words.next().unwrap_or_default());
                }
                None => tables.push(std::fs::read(&word).unwrap_or_else(|_| failed("a table can't be read"))),
            }
        }
        Words { options, tables }
    }
    fn is(&self, name: &str, word: &str) -> bool {
        self.options.get(name).is_some_and(|given| given == word)
    }
    fn fill_down(&self) -> &[u8] {
        self.options.get("fill-down").map_or(&[], |heads| heads.as_bytes())
    }
    fn mark(&self) -> Option<Mark> {
        match self.options.get("decimal").map(|word| word.as_str()) {
            Some(".") => Some(Mark::Point),
            Some(",") => Some(Mark::Comma),
            _ => None,
        }
    }
}

fn failed(why: &str) -> ! {
    eprintln!("mcfplan: {why}");
    std::process::exit(3)
}

fn flow(words: &Words) -> (TextKind, Vec<u8>) {
    let mark = words.mark();
    let penalty = words
        .options
        .get("penalty")
        .map(|word| number(word.as_bytes(), mark).unwrap_or_else(|_| failed("the penalty isn't a number")));
    let terms = mcf_units::Terms { unused: words.is("unused", "allow"), short: words.is("short", "allow"), penalty };
    let [places, routes] = &words.tables[..] else { failed("name two tables, PLACES and ROUTES") };
    let fill_down = words.fill_down();
    let texts = mcf_flow_tables::Texts { places, routes, fill_down };
    let options = mcf_flow_tables::Options { mark, terms };
    let told = mcf_range_text::told_text(Global, &mut engine(), texts, options, words.is("ranges", "yes"))
        .unwrap_or_else(|_| failed("out of memory"));
    (told.kind, told.text)
}

fn pairs(words: &Words) -> (TextKind, Vec<u8>) {
    use mcf_pair_tables::Each;
    let each = match words.options.get("each").map(|word| word.as_str()) {
        Some("who") => Some(Each::Who),
        Some("what") => Some(Each::What),
        Some("both") => Some(Each::Both),
        _ => None,
    };
    let options = mcf_pair_tables::Options { mark: words.mark(), each, maximise: words.is("maximise", "yes") };
    let [costs] = &words.tables[..] else { failed("name a table, COSTS") };
    let fill_down = words.fill_down();
    let told = match words.options.get("groups") {
        Some(file) => {
            use mcf_pair_tables::AtCrossing;
            let groups = &std::fs::read(file).unwrap_or_else(|_| failed("a table can't be read"))[..];
            let crossing = if words.is("crossing", "check") { AtCrossing::Check } else { AtCrossing::Refuse };
            let texts = mcf_pair_tables::GroupTexts { costs, groups, fill_down };
            mcf_pair_text::group_text(Global, &mut engine(), texts, options, crossing)
        }
        None => {
            let texts = mcf_pair_tables::CostTexts { costs, fill_down };
            mcf_pair_text::pair_text(Global, &mut engine(), texts, options)
        }
    };
    let told = told.unwrap_or_else(|_| failed("out of memory"));
    (told.kind, told.text)
}

fn engine() -> mcf_planner::Planner {
    mcf_planner::Planner { choice: Choice { engine: EngineChoice::Fast, ..Choice::default() } }
}

fn main() {
    use std::io::Write;
    let mut words = std::env::args();
    let command = words.nth(1).unwrap_or_default();
    let (kind, text) = match command.as_str() {
        "flow" => flow(&Words::new(words)),
        "pairs" => pairs(&Words::new(words)),
        "--version" => {
            println!("mcfplan unproved");
            return;
        }
        _ => failed("say flow or pairs"),
    };
    std::io::stdout().write_all(&text).unwrap_or_else(|_| failed("write failed"));
    std::process::exit(match kind {
        TextKind::Plan => 0,
        TextKind::NoPlan => 1,
        TextKind::Faults => 2,
    })
}
