//! Running the command.

use crate::module::Module;
use std::ffi::OsStr;
use std::fs;
use std::path::{Path, PathBuf};
use std::process::{self, Command, Output, Stdio};
use std::sync::atomic::{AtomicU32, Ordering};

/// How the command ended and what it wrote.
#[derive(Debug, PartialEq, Eq)]
pub struct Answer {
    pub status: Option<i32>,
    pub output: String,
    pub errors: String,
}

impl From<Output> for Answer {
    fn from(output: Output) -> Answer {
        let text = |bytes| String::from_utf8(bytes).expect("text alone");
        Answer {
            status: output.status.code(),
            output: text(output.stdout),
            errors: text(output.stderr),
        }
    }
}

/// An answer on standard output alone.
pub fn says(status: i32, output: &str) -> Answer {
    Answer {
        status: Some(status),
        output: output.to_string(),
        errors: String::new(),
    }
}

/// A failure, with its lines on standard error alone.
pub fn fails(errors: &str) -> Answer {
    Answer {
        status: Some(2),
        output: String::new(),
        errors: errors.to_string(),
    }
}

/// A change of an image.
pub type Damage = fn(&mut Vec<u8>);

/// A folder for the files of one test, in which the command runs. It goes when
/// the test ends.
pub struct Folder {
    path: PathBuf,
}

impl Folder {
    pub fn new() -> Folder {
        Folder::below(Path::new(env!("CARGO_TARGET_TMPDIR")))
    }

    /// One that other users can reach.
    pub fn in_temporary_files() -> Folder {
        Folder::below(&std::env::temp_dir())
    }

    fn below(place: &Path) -> Folder {
        static COUNT: AtomicU32 = AtomicU32::new(0);
        let number = COUNT.fetch_add(1, Ordering::Relaxed);
        let name = format!("nemod-{}-{number}", process::id());
        let path = place.join(name);
        fs::create_dir(&path).expect("a new folder");
        Folder { path }
    }

    /// One that has the sample as `s.drv`.
    pub fn with_sample() -> Folder {
        let folder = Folder::new();
        folder.put("s.drv", &Module::sample().image());
        folder
    }

    /// One that has it after some damage.
    pub fn with_damaged_sample(damage: impl Fn(&mut Vec<u8>)) -> Folder {
        let folder = Folder::new();
        let mut image = Module::sample().image();
        damage(&mut image);
        folder.put("s.drv", &image);
        folder
    }

    pub fn path(&self, name: impl AsRef<Path>) -> PathBuf {
        self.path.join(name)
    }

    pub fn put(&self, name: impl AsRef<Path>, bytes: &[u8]) {
        fs::write(self.path(name), bytes).expect("a file that can be written");
    }

    pub fn get(&self, name: &str) -> Vec<u8> {
        fs::read(self.path(name)).expect("a file that can be read")
    }

    /// The names in the folder, in order.
    pub fn names(&self) -> Vec<String> {
        let entries = fs::read_dir(&self.path).expect("a folder that can be read");
        let name = |entry: fs::DirEntry| entry.file_name().to_string_lossy().into_owned();
        let mut names: Vec<String> = entries.flatten().map(name).collect();
        names.sort();
        names
    }

    /// The command with these arguments, ready to run.
    pub fn command<T: AsRef<OsStr>>(&self, arguments: &[T]) -> Command {
        let mut command = Command::new(env!("CARGO_BIN_EXE_nemod"));
        command.args(arguments).current_dir(&self.path);
        command.stdin(Stdio::null());
        command
    }

    /// A shell's command line, in which `nemod` is the command.
    pub fn shell(&self, line: &str) -> Answer {
        let mut shell = Command::new("bash");
        shell
            .arg("-c")
            .arg(format!("nemod() {{ \"$NEMOD\" \"$@\"; }}\n{line}"));
        shell
            .env("NEMOD", env!("CARGO_BIN_EXE_nemod"))
            .current_dir(&self.path);
        let output = shell.stdin(Stdio::null()).output();
        output.expect("a shell that runs").into()
    }

    /// Runs the command.
    pub fn nemod<T: AsRef<OsStr>>(&self, arguments: &[T]) -> Answer {
        let output = self.command(arguments).output();
        output.expect("a command that runs").into()
    }
}

impl Drop for Folder {
    fn drop(&mut self) {
        let _ = fs::remove_dir_all(&self.path);
    }
}
