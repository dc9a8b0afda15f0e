//! A small sheet: ten formulas are compiled once, run, and run again after two cells were edited in place, one of them to
//! another kind. `cargo run --example sheet`; examples/sheet.c of the repository is the same in C, and prints the same.
use std::error::Error;
use std::io::Write;
use stewpebble::{compile, select, Kind, Node, Plan, Refusal, Table};

const CELLS: &str = r#"{"rows":[{"name":"bolt","qty":4,"price":2.5},{"name":"nut","qty":10,"price":0.5}],"limit":8}"#;

const QUERIES: [&str; 10] = [
    "$.rows[*].name",
    "$.rows[?@.qty < $.limit].name",
    "$..price",
    "$.rows[-1].qty",
    "$.rows[::-1].name",
    "$.rows[?@.price == null].name",
    "$.rows[?count(@.*) == 3].qty",
    "$.rows[?@.price >= 1 && @.qty].price",
    "$.rows[?match(@.name, 'b.*')].name",
    "$.rows[*",
];

fn main() -> Result<(), Box<dyn Error>> {
    sheet(&mut std::io::stdout())
}

pub fn sheet(out: &mut dyn Write) -> Result<(), Box<dyn Error>> {
    let mut cells: Table = CELLS.parse()?;
    // A formula that is refused keeps its refusal, which every recalculation shows.
    let formulas = QUERIES.map(compile);
    // A cell is known by its number as long as the shape stays.
    let nuts = select("$.rows[1].qty", &cells)?.next().ok_or("no nuts")?.number();
    let price = select("$.rows[0].price", &cells)?.next().ok_or("no price")?.number();

    writeln!(out, "As it was:")?;
    recalculate(out, &formulas, &cells)?;
    cells.set_number(nuts, 3)?; // ten nuts are now three
    cells.set_kind(price, Kind::Null)?; // and the price of a bolt is not known
    writeln!(out, "After the edits:")?;
    recalculate(out, &formulas, &cells)
}

fn recalculate(out: &mut dyn Write, formulas: &[Result<Plan, Refusal>], cells: &Table) -> Result<(), Box<dyn Error>> {
    let shown = |node: Node<'_>| node.text().map_or_else(|| node.to_string(), str::to_owned);
    for (query, formula) in QUERIES.iter().zip(formulas) {
        let answer = match formula.as_ref().map_err(|refusal| *refusal).and_then(|plan| plan.run(cells)) {
            Ok(nodes) if nodes.len() == 0 => "nothing".to_owned(),
            Ok(nodes) => nodes.map(shown).collect::<Vec<_>>().join(" "),
            Err(refusal) => format!("refused {}: {refusal}", refusal.number()),
        };
        writeln!(out, "  {query:38} {answer}")?;
    }
    Ok(())
}
