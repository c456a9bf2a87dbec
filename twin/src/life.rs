//! A random life of a cluster: puts, messages that come late, twice, in any order or never, and
//! rounds of asking.

use std::collections::VecDeque;

use crate::bytes::{self, REFUSED};
use crate::cluster::Cluster;
use crate::invent::{self, Target};
use crate::pair::{Difference, Setup};
use crate::proved::LONGEST_ANSWER;
use crate::random::Random;
use crate::replica::Limits;

/// What happens, and how often, is drawn anew for each cluster.
struct Style {
    honest: bool,
    /// In how many of a hundred cases the network brings its oldest, or its newest, message.
    oldest_first: usize,
    newest_first: usize,
    loss: usize,
    doubling: usize,
    weights: [usize; ACTIONS.len()],
    events: usize,
}

type Action = fn(&mut Life) -> Result<(), Difference>;

/// What can happen, with the largest weight that it gets. The last three are not honest.
const ACTIONS: [(Action, usize); 13] = [
    (Life::put, 40),
    (Life::put_often, 3),
    (Life::get, 10),
    (Life::deliver, 60),
    (Life::deliver_often, 3),
    (Life::deliver_any, 15),
    (Life::tell, 15),
    (Life::hear, 15),
    (Life::ask, 8),
    (Life::send_damaged, 10),
    (Life::invent_put, 30),
    (Life::invent_has, 15),
    (Life::repeat_invented, 20),
];
const DISHONEST: usize = 3;
/// Those that fill large logs and queues.
const OFTEN: [usize; 2] = [1, 4];

impl Style {
    fn draw(random: &mut Random, limits: &Limits) -> Self {
        let honest = random.percent(60);
        let mut weights = ACTIONS.map(|(_, most)| 1 + random.below(most));
        if honest {
            weights[ACTIONS.len() - DISHONEST..].fill(0);
        }
        let oldest_first = *random.pick(&[0, 10, 50, 90, 100]);
        let large = limits.log + limits.waiting > 500;
        if large {
            for action in OFTEN {
                weights[action] *= 5;
            }
        }
        Style {
            honest,
            oldest_first,
            newest_first: *random.pick(&[0, 10, 50, 90, 100]),
            loss: *random.pick(&[0, 0, 5, 20, 60]),
            doubling: *random.pick(&[0, 5, 30]),
            weights,
            events: random.between(200, 400) + if large { 4_000 } else { 0 },
        }
    }
}

/// How a cluster is opened: mostly with small limits, which fill up soon.
pub fn draw_setup(random: &mut Random) -> Setup {
    let replicas = match random.below(10) {
        0 => random.between(1, 16),
        1 => random.between(6, 16),
        _ => random.between(2, 5),
    };
    let (keys, log, waiting) = match random.below(400) {
        0..240 => (3, 4, 3),
        240..380 => (30, 40, 40),
        380..397 => (300, 150, 150),
        _ => (4_096, 1_024, 1_024),
    };
    let limits = Limits {
        replicas: if log == 1_024 {
            replicas.min(4)
        } else {
            replicas
        },
        keys: draw_limit(random, 1, keys),
        log: draw_limit(random, 1, log),
        waiting: draw_limit(random, 0, waiting),
    };
    Setup {
        limits,
        extra_words: *random.pick(&[0, 0, 1, 31, 64]),
        filling: random.next(),
    }
}

fn draw_limit(random: &mut Random, least: usize, most: usize) -> usize {
    match random.below(6) {
        0 => least,
        1 => most,
        _ => random.between(least, most),
    }
}

pub struct Life {
    pub cluster: Cluster,
    random: Random,
    style: Style,
    puts: Vec<Vec<u8>>,
    /// Puts on their way: for whom, and which of `puts`.
    network: VecDeque<(usize, usize)>,
    told: Vec<(usize, Vec<u8>)>,
    invented: Vec<Vec<u8>>,
}

impl Life {
    pub fn new(setup: &Setup, mut random: Random) -> Result<Self, Difference> {
        Ok(Life {
            cluster: Cluster::open(setup)?,
            style: Style::draw(&mut random, &setup.limits),
            random,
            puts: Vec::new(),
            network: VecDeque::new(),
            told: Vec::new(),
            invented: Vec::new(),
        })
    }

    pub fn live(&mut self) -> Result<(), Difference> {
        self.try_short_room()?;
        let phases = 1 + self.random.below(2);
        for phase in 1..=phases {
            while self.cluster.script.len() < phase * self.style.events {
                let action = self.random.weighted(&self.style.weights);
                ACTIONS[action].0(self)?;
            }
            self.try_short_room()?;
            self.settle()?;
        }
        self.cluster.tally.honest_clusters = u64::from(self.style.honest);
        Ok(())
    }

    fn try_short_room(&mut self) -> Result<(), Difference> {
        let replica = self.any_replica();
        let event = self.some_event();
        let length = match self.random.percent(50) {
            true => LONGEST_ANSWER - 1,
            false => self.random.below(LONGEST_ANSWER),
        };
        self.cluster.in_short_room(replica, &event, length)
    }

    fn any_replica(&mut self) -> usize {
        self.random.below(self.cluster.limits().replicas)
    }

    fn put(&mut self) -> Result<(), Difference> {
        let replica = self.any_replica();
        self.put_at(replica)
    }

    fn put_at(&mut self, replica: usize) -> Result<(), Difference> {
        let limits = self.cluster.limits();
        let key = invent::key(&mut self.random, limits.keys, 2);
        let value = invent::value(&mut self.random, 2);
        let answer = self
            .cluster
            .happen(replica, &bytes::put_event(key, &value))?;
        if answer[0] != REFUSED {
            self.puts.extend(bytes::puts_of(answer).map(<[u8]>::to_vec));
            self.send_to_all(replica);
        }
        Ok(())
    }

    fn send_to_all(&mut self, maker: usize) {
        for receiver in 0..self.cluster.limits().replicas {
            if receiver != maker && !self.random.percent(self.style.loss) {
                self.network.push_back((receiver, self.puts.len() - 1));
            }
        }
    }

    fn put_often(&mut self) -> Result<(), Difference> {
        let replica = self.any_replica();
        for _ in 0..self.random.between(1, self.cluster.limits().log + 2) {
            self.put_at(replica)?;
        }
        Ok(())
    }

    fn get(&mut self) -> Result<(), Difference> {
        let replica = self.any_replica();
        let key = invent::key(&mut self.random, self.cluster.limits().keys, 8);
        self.cluster.happen(replica, &bytes::get_event(key))?;
        Ok(())
    }

    fn deliver(&mut self) -> Result<(), Difference> {
        if self.network.is_empty() {
            return self.put();
        }
        let last = self.network.len() - 1;
        let position = match () {
            () if self.random.percent(self.style.oldest_first) => 0,
            () if self.random.percent(self.style.newest_first) => last,
            () => self.random.below(last + 1),
        };
        let (receiver, put) = self.network[position];
        if !self.random.percent(self.style.doubling) {
            self.network.remove(position);
        }
        let event = bytes::came_event(&self.puts[put]);
        self.cluster.happen(receiver, &event)?;
        Ok(())
    }

    fn deliver_often(&mut self) -> Result<(), Difference> {
        for _ in 0..self.network.len().min(self.random.between(1, 1_200)) {
            self.deliver()?;
        }
        Ok(())
    }

    /// Any put that was ever made comes to anybody, also back to its maker.
    fn deliver_any(&mut self) -> Result<(), Difference> {
        if self.puts.is_empty() {
            return self.put();
        }
        let receiver = self.any_replica();
        let event = bytes::came_event(self.random.pick::<Vec<u8>>(&self.puts));
        self.cluster.happen(receiver, &event)?;
        Ok(())
    }

    fn tell(&mut self) -> Result<(), Difference> {
        let teller = self.any_replica();
        let clock = self.cluster.tell(teller)?;
        self.told.push((teller, clock));
        Ok(())
    }

    /// Somebody hears a clock that was told at some time, sometimes the one who told it.
    fn hear(&mut self) -> Result<(), Difference> {
        if self.told.is_empty() {
            return self.tell();
        }
        let receiver = self.any_replica();
        let (teller, clock) = self.random.pick(&self.told);
        let puts = self.cluster.hear(receiver, *teller, clock)?;
        if !self.random.percent(self.style.loss) {
            let teller = *teller;
            self.cluster.bring(teller, &puts)?;
        }
        Ok(())
    }

    fn ask(&mut self) -> Result<(), Difference> {
        let (asker, asked) = (self.any_replica(), self.any_replica());
        self.cluster.ask(asker, asked)
    }

    fn some_event(&mut self) -> Vec<u8> {
        let keys = self.cluster.limits().keys;
        match self.random.below(6) {
            0 => bytes::get_event(invent::key(&mut self.random, keys, 0)),
            1 => bytes::put_event(0, &invent::value(&mut self.random, 0)),
            2 => bytes::tell_event(),
            3 if !self.told.is_empty() => {
                let (teller, clock) = self.random.pick(&self.told);
                bytes::has_event(*teller as u64, clock)
            }
            _ if !self.puts.is_empty() => {
                bytes::came_event(self.random.pick::<Vec<u8>>(&self.puts))
            }
            _ => bytes::tell_event(),
        }
    }

    /// In an honest life damaged bytes come only where they are no event any more.
    fn send_damaged(&mut self) -> Result<(), Difference> {
        let receiver = self.any_replica();
        let mut event = self.some_event();
        for _ in 0..self.random.between(1, 2) {
            invent::damage(&mut event, &mut self.random);
        }
        if self.style.honest && bytes::read_event(&event).is_ok() {
            event.clear();
        }
        self.cluster.happen(receiver, &event)?;
        Ok(())
    }

    fn invent_put(&mut self) -> Result<(), Difference> {
        let me = self.any_replica();
        let target = Target {
            limits: self.cluster.limits(),
            me,
            clock: self.cluster.clock(me),
        };
        let put = target.put(&mut self.random);
        self.cluster.happen(me, &bytes::came_event(&put))?;
        self.invented.push(put);
        Ok(())
    }

    fn repeat_invented(&mut self) -> Result<(), Difference> {
        if self.invented.is_empty() {
            return self.invent_put();
        }
        let receiver = self.any_replica();
        let event = bytes::came_event(self.random.pick::<Vec<u8>>(&self.invented));
        self.cluster.happen(receiver, &event)?;
        Ok(())
    }

    fn invent_has(&mut self) -> Result<(), Difference> {
        let me = self.any_replica();
        let target = Target {
            limits: self.cluster.limits(),
            me,
            clock: self.cluster.clock(me),
        };
        let event = target.has(&mut self.random);
        self.cluster.happen(me, &event)?;
        Ok(())
    }

    /// Rounds of asking until all agree, which honest replicas do after R·L rounds at the latest.
    fn settle(&mut self) -> Result<(), Difference> {
        let limits = self.cluster.limits();
        let most = if self.style.honest {
            limits.replicas * limits.log
        } else {
            2
        };
        let mut rounds = 0;
        while rounds < most && !self.cluster.agrees() {
            self.round()?;
            rounds += 1;
        }
        let views = (0..limits.replicas).map(|replica| self.cluster.view(replica));
        let views = views.collect::<Result<Vec<_>, _>>()?;
        if self.style.honest {
            let most_rounds = &mut self.cluster.tally.most_rounds;
            *most_rounds = rounds.max(*most_rounds);
            if views.iter().any(|view| *view != views[0]) {
                return Err(Difference::NotConverged);
            }
        }
        Ok(())
    }

    /// Everybody asks everybody else, in any order, while old messages still come in between.
    fn round(&mut self) -> Result<(), Difference> {
        let replicas = 0..self.cluster.limits().replicas;
        let mut asks: Vec<_> = replicas
            .clone()
            .flat_map(|asker| replicas.clone().map(move |asked| (asker, asked)))
            .filter(|(asker, asked)| asker != asked)
            .collect();
        self.random.shuffle(&mut asks);
        for (asker, asked) in asks {
            if !self.network.is_empty() && self.random.percent(10) {
                self.deliver()?;
            }
            self.cluster.ask(asker, asked)?;
        }
        Ok(())
    }
}
