//! A machine's clock that jumps, for programs that ask it by the C library. etcd does not: it reads the kernel's own page.
use std::fs::File;
use std::os::unix::fs::FileExt;
use std::path::PathBuf;
use std::process::Command;
use std::sync::OnceLock;
use tempfile::TempDir;

/// The clock of one machine. It ends with its file, and goes on as it stands for programs that have it.
pub struct Clock {
    folder: TempDir,
}

/// What programs are started with so that a test moves their clock. It is made once.
fn library() -> PathBuf {
    static MADE: OnceLock<(TempDir, PathBuf)> = OnceLock::new();
    let (_, library) = MADE.get_or_init(|| {
        let folder = tempfile::tempdir().unwrap();
        let library = folder.path().join("clock.so");
        let source = concat!(env!("CARGO_MANIFEST_DIR"), "/src/clock.c");
        let mut compiler = Command::new("cc");
        compiler.args(["-shared", "-fPIC", "-O1", "-Wall", "-Werror", "-o"]);
        let made = compiler.arg(&library).arg(source).status();
        assert!(made.expect("a C compiler").success());
        (folder, library)
    });
    library.clone()
}

impl Default for Clock {
    fn default() -> Clock {
        let folder = tempfile::tempdir().unwrap();
        let clock = Clock { folder };
        let told = File::create(clock.file()).unwrap();
        told.write_all_at(&[0; 16], 0).unwrap();
        clock
    }
}

impl Clock {
    fn file(&self) -> PathBuf {
        self.folder.path().join("moved")
    }

    /// The words that start a program by this clock.
    pub fn words(&self) -> Vec<String> {
        let file = self.file();
        vec![
            "env".to_owned(),
            format!("LD_PRELOAD={}", library().display()),
            format!("CLOCK_FILE={}", file.display()),
        ]
    }

    /// The time of day jumps by so many seconds from where it stands, and the time since the start, which never goes back, by so many.
    pub fn jump(&self, of_day: i64, since_start: i64) {
        let file = File::options().read(true).write(true).open(self.file());
        let file = file.unwrap();
        for (more, place) in [(of_day, 0), (since_start, 8)] {
            let mut moved = [0; 8];
            file.read_exact_at(&mut moved, place).unwrap();
            let moved = i64::from_ne_bytes(moved) + more;
            file.write_all_at(&moved.to_ne_bytes(), place).unwrap();
        }
    }
}
