//! Benchmarks of the library from Rust: what is compared runs side by side, and ratios are printed. docs/PERFORMANCE.md
//! says what they mean.

mod crope;
mod fold;
mod heap;
mod measured;
mod plain;
mod scripts;
mod splices;
mod timing;

fn main() {
    let named: Vec<String> = std::env::args().skip(1).collect();
    let wanted = |name: &str| named.is_empty() || named.iter().any(|word| word == name);
    if wanted("fold") {
        fold::run();
    }
    if wanted("splices") {
        splices::run();
    }
    if wanted("scripts") {
        scripts::run();
    }
}
