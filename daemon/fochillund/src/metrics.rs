//! What a process counts of itself, for Prometheus.
use crate::callers::State;
use prometheus::core::Collector;
use prometheus::{
    exponential_buckets, Encoder, Gauge, Histogram, HistogramOpts, HistogramVec, IntCounter,
    IntCounterVec, IntGauge, IntGaugeVec, Opts, Registry, TextEncoder,
};
use std::time::Duration;

/// The counters of a process.
#[derive(Debug)]
pub struct Metrics {
    registry: Registry,
    requests: IntCounterVec,
    request_seconds: HistogramVec,
    decisions: IntCounterVec,
    set_seconds: Histogram,
    set_tries: IntCounter,
    batch_commands: Histogram,
    lines_dropped: IntCounter,
    generation: IntGauge,
    cells: IntGaugeVec,
    cells_left: IntGauge,
    history: IntGauge,
    held: IntGauge,
    waits_for: IntGaugeVec,
    calls_waiting: IntGauge,
    engine_seconds: Gauge,
    read_seconds: Gauge,
}

impl Default for Metrics {
    fn default() -> Metrics {
        Metrics::new()
    }
}

impl Metrics {
    /// Nothing counted yet.
    pub fn new() -> Metrics {
        let all = &Registry::new();
        let sizes = histogram("batch_commands", "commands of a message of calls");
        let sizes = sizes.buckets(exponential_buckets(1.0, 2.0, 7).expect("they grow"));
        let asked = histogram("request_seconds", "how long requests took").buckets(times());
        let set = histogram("set_seconds", "how long cells took to be set").buckets(times());
        Metrics {
            requests: counters(
                all,
                "requests_total",
                "requests answered",
                &["route", "status"],
            ),
            request_seconds: put(all, HistogramVec::new(asked, &["route"])),
            decisions: counters(all, "decisions_total", "evaluations told", &["decision"]),
            set_seconds: put(all, Histogram::with_opts(set)),
            set_tries: counter(all, "set_tries_total", "sets that the engine was asked for"),
            batch_commands: put(all, Histogram::with_opts(sizes)),
            lines_dropped: counter(
                all,
                "decision_log_dropped_total",
                "lines of the decision log that were dropped",
            ),
            generation: gauge(all, "generation", "the generation"),
            cells: gauges(all, "cells", "messages taken of a member"),
            cells_left: gauge(all, "cells_left", "cells left of the member's own row"),
            history: gauge(all, "history", "records of the history"),
            held: gauge(all, "held", "calls that are sent and not answered"),
            waits_for: gauges(
                all,
                "waits_for",
                "1 of a member without whose message nothing is delivered",
            ),
            calls_waiting: gauge(all, "calls_waiting", "calls that wait to be sent"),
            engine_seconds: seconds(
                all,
                "engine_seconds_since_heard",
                "how long ago the engine answered",
            ),
            read_seconds: seconds(
                all,
                "rows_seconds_since_read",
                "how long ago a read of the rows began that was answered",
            ),
            registry: all.clone(),
        }
    }

    /// A request of a route was answered with a status.
    pub fn answered(&self, route: &str, status: u16, took: Duration) {
        let status = status.to_string();
        self.requests.with_label_values(&[route, &status]).inc();
        let seconds = self.request_seconds.with_label_values(&[route]);
        seconds.observe(took.as_secs_f64());
    }

    /// So many evaluations were told true, and so many false.
    pub fn decided(&self, granted: usize, others: usize) {
        let of = |decision| self.decisions.with_label_values(&[decision]);
        of("true").inc_by(granted as u64);
        of("false").inc_by(others as u64);
    }

    /// A cell of so many commands was set, or was taken by another.
    pub fn was_set(&self, commands: usize, took: Duration) {
        self.set_seconds.observe(took.as_secs_f64());
        if commands > 0 {
            self.batch_commands.observe(commands as f64);
        }
    }

    /// So many lines of the decision log were dropped.
    pub fn dropped(&self, lines: usize) {
        self.lines_dropped.inc_by(lines as u64);
    }

    /// How many lines of the decision log were dropped.
    pub fn lines_dropped(&self) -> u64 {
        self.lines_dropped.get()
    }

    /// All of it as Prometheus reads it, by what the process tells of itself, and how many sets it has asked its engine for.
    pub fn text(&self, state: &State, set_tries: u64) -> Vec<u8> {
        let number = |number: u64| i64::try_from(number).unwrap_or(i64::MAX);
        self.generation.set(number(state.generation));
        self.cells.reset();
        self.waits_for.reset();
        for (node, taken) in state.nodes.iter().zip(&state.taken) {
            self.cells.with_label_values(&[node]).set(number(*taken));
            let waits = state.waits_for.contains(node);
            self.waits_for.with_label_values(&[node]).set(waits.into());
        }
        self.cells_left.set(number(state.cells_left.unwrap_or(0)));
        self.history.set(number(state.records));
        self.held.set(number(state.sent as u64));
        self.calls_waiting.set(number(state.queued as u64));
        let ago = |milliseconds: u64| milliseconds as f64 / 1e3;
        self.engine_seconds.set(ago(state.engine.answered_ms_ago));
        self.read_seconds.set(ago(state.engine.read_ms_ago));
        let told = self.set_tries.get();
        self.set_tries.inc_by(set_tries.saturating_sub(told));
        let mut text = Vec::new();
        let encoded = TextEncoder::new().encode(&self.registry.gather(), &mut text);
        encoded.expect("memory takes it");
        text
    }
}

/// From a hundredth of a millisecond to some four seconds.
fn times() -> Vec<f64> {
    exponential_buckets(1e-5, 2.5, 15).expect("they grow")
}

fn opts(name: &str, help: &str) -> Opts {
    Opts::new(format!("fochillund_{name}"), help)
}

fn histogram(name: &str, help: &str) -> HistogramOpts {
    HistogramOpts::from(opts(name, help))
}

fn gauge(all: &Registry, name: &str, help: &str) -> IntGauge {
    put(all, IntGauge::with_opts(opts(name, help)))
}

fn gauges(all: &Registry, name: &str, help: &str) -> IntGaugeVec {
    put(all, IntGaugeVec::new(opts(name, help), &["node"]))
}

fn seconds(all: &Registry, name: &str, help: &str) -> Gauge {
    put(all, Gauge::with_opts(opts(name, help)))
}

fn counter(all: &Registry, name: &str, help: &str) -> IntCounter {
    put(all, IntCounter::with_opts(opts(name, help)))
}

fn counters(all: &Registry, name: &str, help: &str, labels: &[&str]) -> IntCounterVec {
    put(all, IntCounterVec::new(opts(name, help), labels))
}

fn put<C: Collector + Clone + 'static>(all: &Registry, made: prometheus::Result<C>) -> C {
    let made = made.expect("its name is one");
    let registered = all.register(Box::new(made.clone()));
    registered.expect("no other has its name");
    made
}
