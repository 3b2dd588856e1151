// What a line may call for the arguments of the program.
fn args(words: &[&str]) -> crate::Args {
    words.iter().map(|word| word.to_string()).collect::<Vec<_>>().into_iter()
}
