//! Prints the ratios, what a run costs, and how the cost grows.

fn main() {
    bench::ratios::print();
    bench::events::print();
    bench::growth::print();
}
