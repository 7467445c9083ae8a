//! Prints the paths of its arguments, by a library or as they are: the smallest program that demangles.
fn main() {
    for symbol in std::env::args().skip(1) {
        #[cfg(library)]
        println!("{:#}", library::demangle(&symbol));
        #[cfg(not(library))]
        println!("{symbol}");
    }
}
