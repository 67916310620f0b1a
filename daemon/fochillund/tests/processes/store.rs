//! Where the rows of groups in chaos are, and what befalls them.
mod engine;
mod wires;

use crate::chaos::Figures;
use crate::group::Start;
use engine::Engine;
use rand::rngs::StdRng;
use rand::{Rng, SeedableRng};
use std::sync::atomic::{AtomicBool, Ordering};
use std::sync::Mutex;
use std::time::Duration;
use wires::Wires;

/// Rows that many groups have side by side.
pub struct Store {
    engine: Mutex<Engine>,
    /// The network between its servers and the groups' processes; none where all run on this machine itself.
    wires: Option<Wires>,
}

impl Store {
    /// Files, of each group in its folder.
    pub fn files() -> Store {
        Store::of(Engine::Files, None)
    }

    /// Files on a disk that is full now and then.
    pub fn small_disk() -> Result<Store, String> {
        Ok(Store::of(Engine::small_disk()?, None))
    }

    /// An etcd of three.
    pub fn etcd() -> Store {
        Store::of(Engine::etcd(None), None)
    }

    pub fn postgres() -> Store {
        let engine = Engine::postgres(None);
        Store::of(engine.expect("it needs no right"), None)
    }

    /// An etcd of three, whose members have a host each.
    pub fn etcd_over_a_network() -> Result<Store, String> {
        let wires = Wires::of(3)?;
        let engine = Engine::etcd(Some(wires.network()));
        Ok(Store::of(engine, Some(wires)))
    }

    /// The same of PostgreSQL, on a small disk.
    pub fn postgres_over_a_network() -> Result<Store, String> {
        let wires = Wires::of(1)?;
        let engine = Engine::postgres(Some(wires.network()))?;
        Ok(Store::of(engine, Some(wires)))
    }

    fn of(engine: Engine, mut wires: Option<Wires>) -> Store {
        if let Some(wires) = &mut wires {
            wires.put_proxies(&engine.addresses());
        }
        Store {
            engine: Mutex::new(engine),
            wires,
        }
    }

    pub fn name(&self) -> String {
        let name = self.engine.lock().unwrap().name();
        match self.wires {
            Some(_) => format!("a network of {name}"),
            None => name.to_owned(),
        }
    }

    /// How the processes of a member of the group with this number are started.
    pub fn start(&self, group: u64, member: u32) -> Start {
        let engine = self.engine.lock().unwrap();
        // Every other group asks etcd itself, and the rest by the proxies of their hosts, as all ask PostgreSQL, which wants TLS of other hosts.
        let is_direct = group.is_multiple_of(2) && matches!(*engine, Engine::Etcd(_));
        let (by, addresses) = match &self.wires {
            None => (Vec::new(), engine.addresses()),
            Some(wires) if is_direct => (wires.words(member), engine.addresses()),
            Some(wires) => (wires.words(member), wires.proxies(member)),
        };
        let rows = engine.rows(&addresses, &format!("g{group}"));
        Start {
            by,
            rows,
            ..Start::default()
        }
    }

    /// For how long things befall a group.
    pub fn lasts(&self) -> Duration {
        match (&*self.engine.lock().unwrap(), &self.wires) {
            (Engine::Files, _) => Duration::from_millis(1200),
            (_, None) => Duration::from_secs(4),
            (_, Some(_)) => Duration::from_secs(8),
        }
    }

    /// So long it is at most until the next thing befalls a group: over a network it would never get on else.
    pub fn pause(&self) -> Duration {
        match self.wires {
            None => Duration::from_millis(60),
            Some(_) => Duration::from_millis(800),
        }
    }

    /// How long a group may take behind that until its processes are killed once more.
    pub fn patience(&self) -> Duration {
        match self.wires {
            None => Duration::from_secs(8),
            Some(_) => Duration::from_secs(25),
        }
    }

    /// Has one thing after the other befall servers and network until it is to end, and tells how often what did.
    pub fn befall_until(&self, ends: &AtomicBool, seed: u64) -> Figures {
        let (mut random, mut figures) = (StdRng::seed_from_u64(seed), Figures::default());
        while !ends.load(Ordering::SeqCst) {
            let pause = random.gen_range(200..1500);
            std::thread::sleep(Duration::from_millis(pause));
            if random.gen_ratio(1, 5) {
                let mut engine = self.engine.lock().unwrap();
                engine.be_full(&mut random, &mut figures);
            } else {
                self.befall(&mut random, &mut figures);
            }
            self.engine.lock().unwrap().mend();
        }
        figures
    }

    /// Something befalls the network, or a server, or both at one time.
    fn befall(&self, random: &mut StdRng, figures: &mut Figures) {
        if let Some(wires) = &self.wires {
            figures.count(wires.befall(random));
        }
        if self.wires.is_none() || random.gen() {
            self.engine.lock().unwrap().befall(random, figures);
        } else {
            let lasts = random.gen_range(200..2500);
            std::thread::sleep(Duration::from_millis(lasts));
        }
        if let Some(wires) = &self.wires {
            wires.mend();
        }
    }
}
