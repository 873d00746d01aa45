use std::io::Read;

fn main() -> Result<(), Box<dyn std::error::Error>> {
    let mut bundle = Vec::new();
    std::io::stdin().read_to_end(&mut bundle)?;
    let listing = dezhakom::Listing::of(&bundle, &mut vec![0; dezhakom::WORK_WORDS])?;
    for race in &listing {
        println!("{race}");
    }
    println!("{} races in {} accesses", listing.len(), listing.counts().accesses);
    Ok(())
}
