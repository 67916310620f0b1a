//! Who is let in, and who is believed to be etcd.
use super::cluster::{free_port, open, Cluster, HasRows, Setup};
use super::one;
use crate::conformance::{all, set, texts};
use rows::etcd::{Login, Options, Uri};
use rows::{Engine, Etcd, Fault, RowName, Told};
use servers::certificates::Authority;
use std::fs;
use std::time::{Duration, Instant};
use tempfile::TempDir;

/// The rights of a group of two, as README has them.
const RIGHTS: &str = "role add ward-reads
role grant-permission --prefix=true ward-reads read /groups/ward/
role add ward-founds
role grant-permission --prefix=true ward-founds write /groups/ward/founding/
role add ward-n1
role grant-permission --prefix=true ward-n1 write /groups/ward/n1/
role add ward-n2
role grant-permission --prefix=true ward-n2 write /groups/ward/n2/
user add n1:n1's
user grant-role n1 ward-reads
user grant-role n1 ward-founds
user grant-role n1 ward-n1
user add n2:n2's
user grant-role n2 ward-reads
user grant-role n2 ward-n2
user add reader:reader's
user grant-role reader ward-reads
user add stranger:stranger's";

/// Passwords, in files.
struct Users(TempDir);

impl Users {
    fn new() -> Users {
        Users(tempfile::tempdir().unwrap())
    }

    /// The options by which a user logs in, with this password.
    fn with(&self, cluster: &Cluster, user: &str, password: &str) -> Options {
        let file = self.0.path().join(user);
        fs::write(&file, format!("{password}\n")).unwrap();
        Options {
            login: Some(Login {
                user: user.to_owned(),
                password: file,
            }),
            ..cluster.options()
        }
    }

    async fn open(&self, cluster: &Cluster, user: &str) -> Etcd {
        open(self.with(cluster, user, &format!("{user}'s"))).await
    }
}

async fn with_rights(setup: Setup) -> (Cluster, Users) {
    let mut cluster = Cluster::start(1, setup).await;
    cluster.operate(RIGHTS);
    cluster.enable_users();
    (cluster, Users::new())
}

fn is_refused<T>(told: Result<T, Fault>) -> bool {
    matches!(told, Err(Fault::Refused(_)))
}

fn row_of(node: &str) -> RowName {
    RowName::of_node(node, 1).unwrap()
}

#[tokio::test]
async fn a_node_sets_cells_of_its_own_row_alone() {
    let (cluster, users) = with_rights(Setup::default()).await;
    let [n1, n2] = [
        users.open(&cluster, "n1").await,
        users.open(&cluster, "n2").await,
    ];
    let founding = RowName::founding();
    let cells = texts(&["one"]);
    assert!(is_refused(n2.set(&founding, 1, &cells).await));
    assert_eq!(n1.set(&founding, 1, &cells).await, Ok(Told::Set));
    assert_eq!(n1.set(&row_of("n1"), 1, &cells).await, Ok(Told::Set));
    assert!(is_refused(n1.set(&row_of("n2"), 1, &cells).await));
    assert!(is_refused(n1.set(&row_of("n10"), 1, &cells).await));
    assert_eq!(n2.get(&row_of("n2"), 1).await, Ok(Vec::new()));
    assert_eq!(n2.set(&row_of("n2"), 1, &cells).await, Ok(Told::Set));
    assert_eq!(n1.get(&row_of("n2"), 1).await, Ok(cells.clone()));
    // So it is of the removal of cells.
    assert_eq!(n1.set(&row_of("n1"), 2, &cells).await, Ok(Told::Set));
    assert!(is_refused(n2.trim(&row_of("n1"), 2).await));
    assert_eq!(n2.get(&row_of("n1"), 2).await, Ok(cells.clone()));
    assert_eq!(n1.trim(&row_of("n1"), 2).await, Ok(()));
    let trimmed = n2.get(&row_of("n1"), 1).await;
    assert_eq!(trimmed, Err(Fault::Trimmed(2)));
    // A right that is taken away is one no more.
    cluster.operate("role revoke-permission --prefix=true ward-n1 /groups/ward/n1/");
    assert!(is_refused(n1.set(&row_of("n1"), 3, &cells).await));
    assert_eq!(n2.get(&row_of("n1"), 2).await, Ok(cells));
}

#[tokio::test]
async fn who_may_only_read_follows() {
    let (cluster, users) = with_rights(Setup::default()).await;
    let writer = users.open(&cluster, "n1").await;
    let reader = users.open(&cluster, "reader").await;
    assert!(is_refused(set(&reader, 1, &["one"]).await));
    let mut tidings = reader.follow(&row_of("n1")).await.unwrap();
    assert_eq!(set(&writer, 1, &["one"]).await, Ok(Told::Set));
    super::failures::is_told(&mut *tidings).await;
    assert_eq!(all(&reader).await, texts(&["one"]));
}

#[tokio::test]
async fn who_has_no_right_is_let_in_nowhere() {
    let (cluster, users) = with_rights(Setup::default()).await;
    let opened = Etcd::open(users.with(&cluster, "n1", "n2's")).await;
    assert!(is_refused(opened));
    assert!(is_refused(
        Etcd::open(users.with(&cluster, "n3", "n3's")).await
    ));
    let stranger = users.with(&cluster, "stranger", "stranger's");
    assert!(is_refused(Etcd::open(stranger).await));
    assert!(is_refused(Etcd::open(cluster.options()).await));
    let mut without = users.with(&cluster, "n1", "n1's");
    without.login.as_mut().unwrap().password = "/nothing/there".into();
    assert!(is_refused(Etcd::open(without).await));
}

#[tokio::test]
async fn a_login_is_refused_where_everybody_is_let_in() {
    let cluster = one().await;
    let opened = Etcd::open(Users::new().with(&cluster, "n1", "n1's")).await;
    assert!(is_refused(opened));
}

#[tokio::test]
async fn a_token_that_is_over_is_made_anew() {
    let (mut cluster, users) = with_rights(Setup::of(&["--auth-token-ttl=1"])).await;
    let engine = users.open(&cluster, "n1").await;
    let mut tidings = engine.follow(&row_of("n1")).await.unwrap();
    assert_eq!(set(&engine, 1, &["one"]).await, Ok(Told::Set));
    super::failures::is_told(&mut *tidings).await;
    tokio::time::sleep(Duration::from_secs(4)).await;
    assert_eq!(set(&engine, 2, &["two"]).await, Ok(Told::Set));
    super::failures::is_told(&mut *tidings).await;
    tokio::time::sleep(Duration::from_secs(4)).await;
    assert_eq!(all(&engine).await, texts(&["one", "two"]));
    // A member that was started again knows no token.
    cluster.kill_all();
    cluster.start_all();
    cluster.answers().await;
    super::failures::is_told(&mut *tidings).await;
    let told = super::failures::sure(&engine, &row_of("n1"), 3, "three").await;
    assert_eq!(told, Ok(Told::Set));
    super::failures::is_told(&mut *tidings).await;
}

fn over_https(authority: &Authority, host: &str) -> Cluster {
    let setup = Setup {
        certificate: Some(authority.certificate(host)),
        ..Setup::default()
    };
    Cluster::begin(1, setup)
}

/// What becomes of opening rows, once a server is there.
async fn opened(options: Options) -> Result<Etcd, Fault> {
    let began = Instant::now();
    loop {
        match Etcd::open(options.clone()).await {
            Err(Fault::Silent(_)) if began.elapsed() < Duration::from_secs(60) => {}
            opened => return opened,
        }
        tokio::time::sleep(Duration::from_millis(20)).await;
    }
}

fn by(authority: &Authority, cluster: &Cluster) -> Options {
    Options {
        authority: Some(authority.pem()),
        ..cluster.options()
    }
}

#[tokio::test]
async fn a_server_is_known_by_its_authority() {
    let authority = Authority::new();
    let cluster = over_https(&authority, "localhost");
    let engine = opened(by(&authority, &cluster)).await.unwrap();
    let mut tidings = engine.follow(&row_of("n1")).await.unwrap();
    assert_eq!(set(&engine, 1, &["one"]).await, Ok(Told::Set));
    super::failures::is_told(&mut *tidings).await;
    assert_eq!(all(&engine).await, texts(&["one"]));
    let other = Authority::new();
    assert!(is_refused(Etcd::open(by(&other, &cluster)).await));
    assert!(is_refused(Etcd::open(cluster.options()).await));
    let mut numbered = by(&authority, &cluster);
    let url = numbered.endpoints[0].to_string();
    numbered.endpoints = vec![url.replace("localhost", "127.0.0.1").parse().unwrap()];
    assert!(is_refused(Etcd::open(numbered.clone()).await));
    numbered.endpoints = vec![url.replace("https", "http").parse().unwrap()];
    assert!(Etcd::open(numbered).await.is_err());
}

#[tokio::test]
async fn a_server_of_another_name_is_refused() {
    let authority = Authority::new();
    let cluster = over_https(&authority, "other.example");
    assert!(is_refused(opened(by(&authority, &cluster)).await));
}

#[tokio::test]
async fn endpoints_are_members_of_one_cluster_of_which_one_answers() {
    let (one, other) = (one().await, one().await);
    let silent: Uri = format!("http://127.0.0.1:{}", free_port()).parse().unwrap();
    let [first, second] = [&one, &other].map(|cluster| cluster.options().endpoints.remove(0));
    let of = |endpoints| Options {
        endpoints,
        ..one.options()
    };
    let opened = Etcd::open(of(vec![silent.clone()])).await;
    assert!(matches!(opened, Err(Fault::Silent(_))));
    let engine = Etcd::open(of(vec![silent, first.clone()])).await.unwrap();
    assert_eq!(set(&engine, 1, &["one"]).await, Ok(Told::Set));
    assert!(is_refused(Etcd::open(of(vec![first, second])).await));
}
