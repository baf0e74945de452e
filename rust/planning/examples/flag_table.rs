//! Prints the bytes of the named flag columns as a table of Markdown.
fn main() {
    print!("{}", planning::flags::table(&planning::flags::figures()));
}
