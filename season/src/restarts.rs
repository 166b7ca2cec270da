//! A till or the office is cut off, and starts again from its files.

use crate::cuts::{At, Cut, CutOff, Landed};
use crate::holds::Check;
use crate::met::Event;
use crate::office::Office;
use crate::season::{started, Season};
use crate::tally::Keeper;

impl Season {
    pub fn is_save_cut(&mut self) -> bool {
        self.random.one_in(self.plan.saves_to_a_cut())
    }

    /// The first save of a book comes up once in 256 sales, so most of them are cut off.
    pub fn is_sale_cut(&mut self, is_book_full: bool) -> bool {
        match is_book_full {
            true => !self.random.one_in(4),
            false => self.is_save_cut(),
        }
    }

    /// After a cut: all that the till had in memory is gone. Sometimes it comes back with a newer bundle.
    pub fn restart(&mut self, post: usize) {
        if self.random.one_in(2) {
            self.fetch_bundle(post);
        }
        let rules = self.plan.rules();
        let post = &mut self.posts[post];
        post.handset = started(post.till, &post.folder, rules);
    }

    pub fn restart_office(&mut self) {
        self.office = Office::start(&self.plan.folder.join("office"), self.plan.rules());
    }

    pub fn note_cut(&mut self, keeper: Keeper, cut_off: CutOff) {
        self.holds.hold(cut_off.landed != Landed::Neither, Check::Landed(keeper), || format!("{:?}", cut_off.cut));
        self.met.note_if(cut_off.leaves_litter, Event::CutLeftLitter);
        self.met.note_if(cut_off.book_is_new, Event::CutInNewBook);
        match cut_off.cut {
            Cut::BeforeOutbox => self.met.note(Event::CutBeforeOutbox),
            Cut::BeforeSave => self.met.note(Event::CutBeforeSave),
            Cut::AfterSave => self.met.note(Event::CutAfterSave),
            Cut::InSave(blow) => {
                self.met.note_if(blow.with_power, Event::CutWithPower);
                self.met.note(match blow.at {
                    At::Step(step) => Event::CutAtStep(keeper, step),
                    At::Bytes(_) => Event::CutWithinBytes,
                    At::DiskFull(_) => Event::CutByFullDisk,
                });
            }
        }
    }
}
