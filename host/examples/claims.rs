use usm::{sentences, text};

fn main() -> Result<(), Box<dyn std::error::Error>> {
    let mut sheet = text::parse(&std::fs::read_to_string("mine.txt")?)?;
    sheet.claim_margins()?;
    match sheet.check() {
        Ok(accepted) => println!("{} groups, {} mills", accepted.groups, accepted.total),
        Err(refusal) => println!("{}", sentences::of_sheet(&sheet, &refusal)),
    }
    std::fs::write("mine.usm", sheet.to_file()?)?;
    Ok(())
}
