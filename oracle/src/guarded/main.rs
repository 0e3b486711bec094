// Plays a script of calls on ours, through the C interface, with each lent slice where a step outside of it shows: in
// pages of its own between two that may not be touched, or in a block of the heap that is exactly as long, for valgrind.
// The answers are those of `replay`.

#[path = "../capi.rs"]
mod capi;
mod heap;
#[path = "../lent.rs"]
mod lent;
#[path = "../operation.rs"]
mod operation;
#[path = "../ours.rs"]
mod ours;
mod pages;
#[path = "../replay.rs"]
mod replay;
#[path = "../segments.rs"]
mod segments;

use heap::Heap;
use ours::Ours;
use pages::{Edge, Pages};

// What is done wrong on purpose, to see that it shows.
#[derive(Clone, Copy, PartialEq, Eq)]
pub enum Wrong {
    Nothing,
    // Every slice is lent one entry further out: ours is told one entry more than it has at that end.
    Outward,
    // Every slice is lent one entry further in, so that the entry beside it is taken for its own.
    Inward,
    // What is lent to be read is written.
    Written,
}

fn wrong(word: Option<&str>) -> Option<Wrong> {
    Some(match word {
        None => Wrong::Nothing,
        Some("outward") => Wrong::Outward,
        Some("inward") => Wrong::Inward,
        Some("written") => Wrong::Written,
        Some(_) => return None,
    })
}

fn main() -> std::io::Result<()> {
    let words: Vec<String> = std::env::args().skip(1).collect();
    let place = words.first().map_or("", String::as_str);
    match (place, wrong(words.get(1).map(String::as_str))) {
        ("end", Some(wrong)) => replay::replay(&Ours {
            lending: Pages {
                edge: Edge::End,
                wrong,
            },
        }),
        ("start", Some(wrong)) => replay::replay(&Ours {
            lending: Pages {
                edge: Edge::Start,
                wrong,
            },
        }),
        ("heap", Some(wrong)) if wrong != Wrong::Written => replay::replay(&Ours {
            lending: Heap { wrong },
        }),
        _ => {
            eprintln!("usage: guarded end|start|heap [outward|inward|written], a script on standard input");
            std::process::exit(2);
        }
    }
}
