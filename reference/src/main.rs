fn main() {
    let arguments: Vec<String> = std::env::args().skip(1).collect();
    std::process::exit(ninhalto_reference::cli::run(&arguments));
}
