//! `speed FILE TURNS`: the least processor seconds of so many runs of this crate's calls over a file.

/// The seconds this process was on a processor, as Linux tells them.
fn seconds() -> f64 {
    let told = std::fs::read_to_string("/proc/self/schedstat").unwrap_or_default();
    told.split(' ').next().and_then(|it| it.parse::<f64>().ok()).map_or(f64::NAN, |it| it / 1e9)
}

fn least<T>(turns: u32, mut call: impl FnMut() -> T) -> f64 {
    (0..turns)
        .map(|_| {
            let start = seconds();
            let _ = call();
            seconds() - start
        })
        .fold(f64::INFINITY, f64::min)
}

fn main() -> Result<(), Box<dyn std::error::Error>> {
    let mut words = std::env::args().skip(1);
    let text = std::fs::read(words.next().ok_or("a file is wanted")?)?;
    let turns = words.next().map_or(Ok(3), |it| it.parse())?;
    let document = cwr::Document::read(&text)?;
    let title = cwr::fields("NWR").iter().find(|it| it.name == "title").ok_or("no title")?;
    println!("Rust: check\t{}", least(turns, || cwr::check(&text, &cwr::Limits::NONE)));
    println!("Rust: Document::read\t{}", least(turns, || cwr::Document::read(&text)));
    println!("Rust: the titles of all works\t{}", least(turns, || {
        document.records().filter(|it| it.line().starts_with(b"NWR")).map(|it| it.cell(title).len()).sum::<usize>()
    }));
    println!("Rust: write(records)\t{}", least(turns, || cwr::write(document.records(), &cwr::Limits::NONE)));
    Ok(())
}
