//! A season: many tills over many days, one turn after the other, all of it decided by a seed.

use std::fs;
use std::io;
use std::path::{Path, PathBuf};

use second::book::LARGEST_TILL;
use second::calendar::day_after;
use second::generate::random::Random;

use crate::bundles::{Bundle, BundleName, Bundles};
use crate::cuts::Cutter;
use crate::holds::Holds;
use crate::met::Met;
use crate::office::Office;
use crate::rules::{self, Broken, Rules};
use crate::signal::Air;
use crate::tally::{PassageId, Tally};
use crate::till::Till;

const FIRST_DAY: u64 = 20_250_401;
const PARTIES_A_DAY: (u64, u64) = (26, 42);
const MOST_ROUNDS_TO_EMPTY: usize = 100;
pub const MOST_TILLS: usize = 9_000;

/// What a season is played by.
#[derive(Clone, Debug)]
pub struct Plan {
    pub seed: u64,
    pub days: u64,
    pub tills: usize,
    pub broken: Option<Broken>,
    pub folder: PathBuf,
    pub shim: PathBuf,
}

impl Plan {
    pub fn rules(&self) -> Rules {
        self.broken.map_or(rules::KEPT, |broken| broken.rules)
    }

    pub fn saves_to_a_cut(&self) -> u64 {
        self.broken.map_or(rules::SAVES_TO_A_CUT, |broken| broken.saves_to_a_cut)
    }
}

/// A till and what it has by hand.
pub struct Post {
    pub till: u32,
    pub folder: PathBuf,
    pub handset: Till,
    pub bundle: BundleName,
}

pub struct Season {
    pub plan: Plan,
    pub random: Random,
    pub bundles: Bundles,
    pub posts: Vec<Post>,
    pub office: Office,
    pub newest_at_office: BundleName,
    pub air: Air,
    pub tally: Tally,
    pub met: Met,
    pub holds: Holds,
    pub cutter: Cutter,
    pub today: u64,
    pub turn: u64,
}

impl Season {
    /// Begins with empty folders.
    pub fn new(plan: Plan) -> io::Result<Season> {
        if plan.folder.exists() {
            fs::remove_dir_all(&plan.folder)?;
        }
        let cutter = Cutter::new(&plan.shim, &plan.folder.join("scratch"))?;
        let posts = (0..plan.tills).map(|place| Post::new(place, &plan)).collect();
        Ok(Season {
            random: Random::from_seed(plan.seed),
            bundles: Bundles::default(),
            posts,
            office: Office::start(&plan.folder.join("office"), plan.rules()),
            newest_at_office: BundleName(0),
            air: Air::default(),
            tally: Tally::default(),
            met: Met::nothing(cutter.steps()),
            holds: Holds::default(),
            cutter,
            today: FIRST_DAY,
            turn: 0,
            plan,
        })
    }

    /// Plays until the end, or until the evening on which it is found out. The days played.
    pub fn play(&mut self) -> u64 {
        for day in 1..=self.plan.days {
            self.morning(day);
            self.trips();
            self.evening();
            if self.is_found_out() {
                return day;
            }
            self.today = day_after(self.today);
        }
        self.empty_outboxes();
        self.evening();
        self.hold_all_is_one();
        self.plan.days
    }

    /// Whether something is not so; where a rule is broken, whether that was noticed by what has to.
    pub fn is_found_out(&self) -> bool {
        match self.plan.broken {
            None => !self.holds.complaints.is_empty(),
            Some(broken) => self.holds.complaints.iter().any(|complaint| complaint.check == broken.noticed_by),
        }
    }

    fn morning(&mut self, day: u64) {
        self.bundles.publish(&mut self.random, self.today);
        for post in 0..self.posts.len() {
            if day == 1 || self.random.one_in(3) {
                self.fetch_bundle(post);
            }
            if self.random.one_in(2) {
                self.deliver_damaged_bundle(post);
            }
        }
        self.damage_stored_books();
        self.lose_whole_series();
    }

    pub fn fetch_bundle(&mut self, post: usize) {
        self.posts[post].bundle = self.bundles.newest();
    }

    fn trips(&mut self) {
        let mut turns = Vec::new();
        for post in 0..self.posts.len() {
            let parties = self.random.between(PARTIES_A_DAY.0, PARTIES_A_DAY.1);
            turns.extend((0..parties).map(|_| post));
        }
        self.random.shuffle(&mut turns);
        for post in turns {
            self.take_turn(post);
        }
    }

    fn take_turn(&mut self, post: usize) {
        self.turn += 1;
        self.deliver_arriving();
        self.serve(post);
        if self.random.one_in(6) {
            self.cancel_some(post);
        }
        if self.random.one_in(8) {
            self.print_again(post);
        }
        if self.random.one_in(12) {
            self.use_number_twice(post);
        }
        if self.random.one_in(40) {
            self.fetch_bundle(post);
        }
        if self.random.one_in(4) {
            self.send_some(post);
        }
    }

    fn empty_outboxes(&mut self) {
        for _ in 0..MOST_ROUNDS_TO_EMPTY {
            if self.is_all_sent() {
                return;
            }
            self.turn += Air::longest_way();
            self.deliver_arriving();
            for post in 0..self.posts.len() {
                self.send_all(post);
            }
        }
    }

    pub fn is_all_sent(&self) -> bool {
        self.air.is_empty() && self.posts.iter().all(|post| post.handset.unsent().is_empty())
    }

    /// What the till sells by.
    pub fn bundle_at(&self, post: usize) -> Bundle<'_> {
        self.bundles.named(self.posts[post].bundle)
    }

    /// One that the till sold, of late or at any time.
    pub fn some_passage(&mut self, post: usize) -> Option<PassageId> {
        const OF_LATE: usize = 12;
        let ids = self.tally.ids_of_till(self.posts[post].till);
        if ids.is_empty() {
            return None;
        }
        let from = if self.random.one_in(2) { ids.len().saturating_sub(OF_LATE) } else { 0 };
        Some(self.random.pick(&ids[from..]))
    }
}

impl Post {
    fn new(place: usize, plan: &Plan) -> Post {
        let till = number_of_till(place);
        let folder = plan.folder.join(format!("till-{till:05}"));
        let handset = started(till, &folder, plan.rules());
        Post { till, folder, handset, bundle: BundleName(1) }
    }
}

/// Both ends of what a till may be called are among them.
fn number_of_till(place: usize) -> u32 {
    match place {
        0 => 1,
        1 => LARGEST_TILL as u32,
        _ => 7 * place as u32,
    }
}

pub fn started(till: u32, folder: &Path, rules: Rules) -> Till {
    Till::start(till, folder, rules).unwrap_or_else(|error| panic!("{error}"))
}
