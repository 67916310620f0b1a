//! The network between servers and the groups' processes, which loses, delays and parts.
use rand::rngs::StdRng;
use rand::seq::SliceRandom;
use rand::Rng;
use servers::network::{Network, Rule};
use servers::proxy::Proxy;
use std::time::Duration;

/// So many members a group has at most.
const MEMBERS: usize = 4;

/// First a host for each server, then one for each member of a group: those of the same number share it.
pub struct Wires {
    network: Network,
    servers: usize,
    /// On each member's host one before each server.
    proxies: Vec<Vec<Proxy>>,
}

impl Wires {
    /// For so many servers.
    pub fn of(servers: usize) -> Result<Wires, String> {
        Ok(Wires {
            network: Network::of(servers + MEMBERS)?,
            servers,
            proxies: Vec::new(),
        })
    }

    pub fn network(&self) -> &Network {
        &self.network
    }

    /// Puts proxies before servers with these addresses.
    pub fn put_proxies(&mut self, servers: &[String]) {
        let of_host = |place: usize| {
            let host = self.network.host(self.servers + place);
            let before = |server: &String| Proxy::on(host, server);
            servers.iter().map(before).collect()
        };
        self.proxies = (0..MEMBERS).map(of_host).collect();
    }

    /// The words that start a program on a member's host.
    pub fn words(&self, member: u32) -> Vec<String> {
        let place = self.servers + member as usize - 1;
        self.network.host(place).words()
    }

    /// Where the processes of a member find the proxies of their host.
    pub fn proxies(&self, member: u32) -> Vec<String> {
        let proxies = &self.proxies[member as usize - 1];
        proxies.iter().map(Proxy::address).collect()
    }

    /// Something befalls the network. Gives its name.
    pub fn befall(&self, random: &mut StdRng) -> &'static str {
        match random.gen_range(0..10) {
            0..=2 => {
                let percent = random.gen_range(2..40);
                self.network.set_rules(&[Rule::Lose(percent)]);
                "packets lost for a while"
            }
            3 | 4 => {
                let (one, other) = self.parts(random);
                let cuts = [Rule::Cut(one.clone(), other.clone()), Rule::Cut(other, one)];
                self.network.set_rules(&cuts);
                "the network in two parts for a while"
            }
            5 | 6 => {
                let (one, other) = self.parts(random);
                self.network.set_rules(&[Rule::Cut(one, other)]);
                "the network cut one way for a while"
            }
            7 | 8 => {
                let delay = Duration::from_millis(random.gen_range(5..400));
                self.each_proxy(|proxy| proxy.set_delay(delay));
                "all delayed for a while"
            }
            _ => {
                self.each_proxy(Proxy::cut);
                "connections cut"
            }
        }
    }

    /// The hosts in two parts, of which none is empty.
    fn parts(&self, random: &mut StdRng) -> (Vec<usize>, Vec<usize>) {
        let mut hosts: Vec<usize> = (0..self.servers + MEMBERS).collect();
        hosts.shuffle(random);
        let other = hosts.split_off(random.gen_range(1..hosts.len()));
        (hosts, other)
    }

    fn each_proxy(&self, befall: impl Fn(&Proxy)) {
        self.proxies.iter().flatten().for_each(befall);
    }

    /// All goes through again, at once.
    pub fn mend(&self) {
        self.network.set_rules(&[]);
        self.each_proxy(|proxy| proxy.set_delay(Duration::ZERO));
    }
}
