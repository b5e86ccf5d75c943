//! Each refusal's number and words, one a line, as `vcm_refusal_text` of C has them.
use vcm::Refusal;

fn main() {
    for number in 4..=14 {
        println!("{}", Refusal::from_number(number));
    }
}
