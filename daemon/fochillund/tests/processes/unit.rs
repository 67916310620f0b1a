//! The unit for systemd: that systemd can read it, and that its line starts a member. Nothing here runs systemd itself.
use crate::group::Group;
use fochillund::group::node;
use std::path::{Path, PathBuf};
use std::process::{Command, Stdio};

fn unit() -> PathBuf {
    Path::new(env!("CARGO_MANIFEST_DIR")).join("../../tools/packing/fochillund@.service")
}

/// The words of the unit's ExecStart, with what systemd would put in for a node.
fn words(group: &Group, member: u32, rows: &str) -> Vec<String> {
    let unit = std::fs::read_to_string(unit()).unwrap();
    let line = unit
        .lines()
        .find_map(|line| line.strip_prefix("ExecStart="));
    let nodes: Vec<String> = (1..=group.members()).map(node).collect();
    let founding = group.founding();
    let put = [
        (
            "/usr/local/bin/fochillund",
            env!("CARGO_BIN_EXE_fochillund"),
        ),
        ("${STATE_DIRECTORY}", group.folder().to_str().unwrap()),
        ("/etc/fochillun/founding.toml", founding.to_str().unwrap()),
        ("${NODES}", &nodes.join(",")),
        ("%i", &node(member)),
        ("$ROWS", rows),
    ];
    let line = put
        .iter()
        .fold(line.unwrap().to_owned(), |line, (named, is)| {
            assert!(line.contains(named), "{named} is not in {line}");
            line.replace(named, is)
        });
    assert!(!line.contains(['$', '%']), "{line}");
    line.split_whitespace().map(str::to_owned).collect()
}

#[tokio::test]
async fn the_unit_starts_a_member() {
    let group = Group::of(1);
    let rows = format!("--rows {}", group.folder().join("rows").display());
    let words = words(&group, 1, &rows);
    let mut process = Command::new(&words[0])
        .args(&words[1..])
        .stdout(Stdio::null())
        .spawn()
        .unwrap();
    let told = loop {
        if let Ok(told) = group
            .client()
            .call(1, "a", r#"[{"name":"SsdRoleSets"}]"#)
            .await
        {
            break told;
        }
    };
    assert_eq!(told.0.as_u16(), 200);
    assert!(group.folder().join("rows/n1/g1.row").exists());
    process.kill().unwrap();
    process.wait().unwrap();
}

#[test]
fn systemd_can_read_the_unit() {
    let folder = tempfile::tempdir().unwrap();
    // The program and its user need not be on this machine.
    let text = std::fs::read_to_string(unit()).unwrap();
    let text = text.replace("/usr/local/bin/fochillund", "/bin/true");
    let named = folder.path().join("fochillund@n1.service");
    std::fs::write(&named, text.replace("User=fochillun", "User=root")).unwrap();
    let told = Command::new("systemd-analyze")
        .arg("verify")
        .arg("--man=no")
        .arg(&named)
        .output()
        .expect("systemd-analyze: apt-get install systemd");
    let said = String::from_utf8_lossy(&told.stderr);
    assert!(told.status.success() && said.is_empty(), "{said}");
}
