//! How a process answers its callers.
use crate::decision_log::LogOptions;
use clap::Args;
use std::net::SocketAddr;
use std::path::PathBuf;
use std::time::Duration;

/// How a process answers its callers.
#[derive(Args, Clone, Debug)]
pub struct Serving {
    /// For how many seconds a caller waits until it is told for whom its call waits
    #[arg(long, value_parser = seconds, default_value = "10")]
    pub patience: Duration,
    /// How many seconds ago the rows were read at most where a question is answered by what was delivered
    #[arg(long, value_parser = seconds, default_value = "1")]
    pub freshness: Duration,
    /// Who may open the socket, as chmod has it
    #[arg(long, value_parser = mode, default_value = "600")]
    pub socket_mode: u32,
    /// Answer callers at this address too, as 0.0.0.0:8443: with TLS (--certificate, --key), and who is known by --callers
    #[arg(long)]
    pub listen: Option<SocketAddr>,
    /// The file (PEM) of the certificate of that address, and of those between it and its authority. Read again on SIGHUP
    #[arg(long, requires_all = ["listen", "key"])]
    pub certificate: Option<PathBuf>,
    /// The file (PEM) of its key
    #[arg(long, requires = "certificate")]
    pub key: Option<PathBuf>,
    /// The file (PEM) of the authority that callers' certificates are of, where they show one
    #[arg(long, requires_all = ["certificate", "callers"])]
    pub client_authority: Option<PathBuf>,
    /// The file of who may call there, by token or certificate, as `fochillund token` makes it. Read again on SIGHUP
    #[arg(long, requires = "listen")]
    pub callers: Option<PathBuf>,
    /// Listen without TLS, or without --callers: whoever reaches the address reads and changes what goes by, or may ask anything
    #[arg(long, requires = "listen")]
    pub insecure_network: bool,
    /// By which URL callers know this process, as https://decisions.example; else by the name that they asked for
    #[arg(long)]
    pub public_url: Option<String>,
    /// The decision log.
    #[command(flatten)]
    pub log: LogOptions,
}

/// Reads a number of seconds.
///
/// # Errors
/// Where it is none, or no time.
pub fn seconds(text: &str) -> Result<Duration, String> {
    let seconds: f64 = text.parse().map_err(|error| format!("{error}"))?;
    Duration::try_from_secs_f64(seconds).map_err(|error| error.to_string())
}

fn mode(text: &str) -> Result<u32, String> {
    let mode = u32::from_str_radix(text, 8).map_err(|error| error.to_string())?;
    match mode <= 0o777 {
        true => Ok(mode),
        false => Err("a mode is 0 to 777".to_owned()),
    }
}
