
/// Runs the call in a thread with a large stack.
fn main() -> std::process::ExitCode {
    let call = || {
        let words: Result<Vec<String>, _> = std::env::args_os().skip(1).map(|word| word.into_string()).collect();
        let mut shelf = wb_base::FileShelf::new();
        let mut out = wb_base::StdSink::new(std::io::stdout());
        wb_cli::command(shim::Global, &words.unwrap_or_default(), &mut shelf, &mut out).number()
    };
    let status = std::thread::Builder::new().stack_size(1 << 30).spawn(call).unwrap().join().unwrap();
    std::process::ExitCode::from(status)
}
