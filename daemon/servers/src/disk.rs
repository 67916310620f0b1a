//! A small disk, that a test fills up.
use std::fs::{self, File};
use std::io::Write;
use std::os::unix::fs::PermissionsExt;
use std::path::{Path, PathBuf};
use std::process::Command;
use tempfile::TempDir;

/// Ends with what is on it.
pub struct Disk {
    folder: TempDir,
}

impl Disk {
    /// Of so many megabytes.
    ///
    /// # Errors
    /// Why this machine makes none.
    pub fn of(megabytes: u32) -> Result<Disk, String> {
        let folder = tempfile::tempdir().unwrap();
        let mut mount = Command::new("mount");
        mount
            .args(["-t", "tmpfs", "-o"])
            .arg(format!("size={megabytes}m"));
        let told = mount.arg("rows").arg(folder.path()).output();
        let told = told.map_err(|error| error.to_string())?;
        if !told.status.success() {
            return Err(String::from_utf8_lossy(&told.stderr).trim().to_owned());
        }
        let all = fs::Permissions::from_mode(0o755);
        fs::set_permissions(folder.path(), all).unwrap();
        Ok(Disk { folder })
    }

    /// Its folder.
    pub fn path(&self) -> &Path {
        self.folder.path()
    }

    fn ballast(&self) -> PathBuf {
        self.path().join("ballast")
    }

    /// Has it no room left.
    pub fn fill(&self) {
        let mut file = File::create(self.ballast()).unwrap();
        let mut length = 1 << 20;
        while length > 0 {
            match file.write(&vec![0; length]) {
                Ok(1..) => {}
                Ok(0) | Err(_) => length /= 2,
            }
        }
    }

    /// Has it the room again that it had.
    pub fn make_room(&self) {
        fs::remove_file(self.ballast()).unwrap();
    }
}

impl Drop for Disk {
    fn drop(&mut self) {
        let path = self.folder.path();
        // Whatever still has files there loses them when it ends.
        let _ = Command::new("umount").arg("--lazy").arg(path).status();
    }
}
