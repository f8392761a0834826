//! Stores samples of the Rust original's answers for the programs `replay` and
//! `replay_pictures` of the gate, and of the model's for finer heights, which the original does not
//! have.
//!
//! `cargo run --release --bin store` writes their files `stdin`, the questions, and `stdout`, the
//! answers. The port has no part in it. With `--check` it writes nothing, and fails where a file is
//! not what it would write.
#[cfg(original)]
mod pictures;
#[cfg(original)]
mod tables;

#[cfg(not(original))]
fn main() {
    eprintln!("the original's text is not at hand: name its folder by TONE_ORIGINAL");
    std::process::exit(2);
}

#[cfg(original)]
fn main() {
    let work = if std::env::args().any(|word| word == "--check") { check } else { store };
    work("replay", tables::sample());
    work("replay_pictures", pictures::sample());
}

/// Lines of questions and lines of answers.
#[cfg(original)]
#[derive(Default)]
struct Sample {
    asked: String,
    answered: String,
}

#[cfg(original)]
impl Sample {
    fn add(&mut self, question: &[u8], answer: &str) {
        self.asked += &(hex(question) + "\n");
        self.answered += &(answer.to_owned() + "\n");
    }
}

#[cfg(original)]
impl Sample {
    /// The files of a program, and what is in them.
    fn files(&self, program: &str) -> [(std::path::PathBuf, &str); 2] {
        let folder =
            std::path::Path::new(env!("CARGO_MANIFEST_DIR")).join("../../crates").join(program);
        [(folder.join("stdin"), &self.asked), (folder.join("stdout"), &self.answered)]
    }
}

#[cfg(original)]
fn store(program: &str, sample: Sample) {
    for (path, text) in sample.files(program) {
        std::fs::write(&path, text).unwrap_or_else(|e| panic!("{}: {e}", path.display()));
    }
    println!("{program}: {} questions and their answers", sample.asked.lines().count());
}

#[cfg(original)]
fn check(program: &str, sample: Sample) {
    for (path, text) in sample.files(program) {
        if std::fs::read(&path).ok().as_deref() != Some(text.as_bytes()) {
            eprintln!("{} is not what `store` writes", path.display());
            std::process::exit(1);
        }
    }
    println!("{program}: {} questions are stored with their answers", sample.asked.lines().count());
}

#[cfg(original)]
fn hex(bytes: &[u8]) -> String {
    bytes.iter().map(|b| format!("{b:02x}")).collect()
}
