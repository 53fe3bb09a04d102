//! Prints a mask file. It takes its modules from their files and not from the library `bench`, so that it can be linked
//! where the proved library isn't built.
#[allow(dead_code)]
#[path = "../masks.rs"]
mod masks;
#[allow(dead_code)]
#[path = "../options.rs"]
mod options;

use masks::{Design, Method};
use options::{print, run, Given};

/// What a reader of the file has to know.
fn heading(design: &Design, natural: bool) -> String {
    let (m, n, k, db) = (design.m, 1 << design.m, design.information, design.db);
    let method = match design.method {
        Method::Gaussian => "by the Gaussian approximation",
        Method::Bhattacharyya => "by Bhattacharyya bounds",
    };
    let order = if natural {
        "# The positions are in natural order. The decoder of Vedrogne needs them with their\n\
         # m binary digits reversed: bench/run takes this file with --natural."
    } else {
        "# The m binary digits of each position are reversed, as the graph of the decoder of\n\
         # Vedrogne needs it. Other decoders may need the natural order."
    };
    format!(
        "# ({n},{k}) mask, m = {m}, {method} at Eb/N0 = {db} dB: 1 frozen, 0 information\n{order}\n\
         # A peer whose mask has the other order doesn't understand a block coded with this one.\n\
         # Choosing the mask is outside of what is proved."
    )
}

fn mask(arguments: &[String]) -> Result<(), String> {
    let given = Given::new(arguments, &masks::OPTIONS, &["natural"])?;
    let design = Design::new(&given)?;
    let mut mask = design.mask();
    if given.has("natural") {
        mask = masks::reversed(&mask);
    }
    print(&heading(&design, given.has("natural")));
    for line in mask.chunks(32) {
        let values: Vec<String> = line.iter().map(u8::to_string).collect();
        print(&values.join(" "));
    }
    Ok(())
}

fn main() {
    run("mask", mask);
}
