//! Prints the sample of calls and all that is wanted of them: crates/replay/stdin. The form of a line stands in src/sample.rs.
fn main() {
    print!("{}", differ::sample::text());
}
