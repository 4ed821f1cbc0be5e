//! `cargo run --example titles FILE`: the verdict on a file, and the title of each work in it.

fn main() -> Result<(), Box<dyn std::error::Error>> {
    let name = std::env::args().nth(1).ok_or("a file is wanted")?;
    let text = std::fs::read(name)?;
    let document = cwr::Document::read(&text)?;
    for record in document.records().filter(|it| it.kind() == "NWR") {
        println!("{}", record.text("title").unwrap_or_default());
    }
    println!("{}", document.verdict());
    Ok(())
}
