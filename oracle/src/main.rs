// The oracle's program: the Rust, document 01's rules around it, and what is asked of them.

mod conform;
mod lent;
mod operation;
mod points;
mod replay;
mod rules;
mod segments;
mod sixteen;

fn main() -> std::io::Result<()> {
    let mode = std::env::args().nth(1).unwrap_or_default();
    match mode.as_str() {
        "replay" => replay::replay(&rules::Rules::default()),
        "conform" => conform::conform(),
        "sixteen" => points::sixteen(),
        "sine" => points::sine(),
        "coefficients" => points::coefficients(),
        _ => {
            eprintln!(
                "usage: oracle replay|conform|sixteen|sine|coefficients, all from standard input"
            );
            std::process::exit(2);
        }
    }
}
