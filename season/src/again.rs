//! Sales that come up again at the till: they are cancelled, printed once more, or their number is used for another.

use offers::SaleNumber;

use crate::answers::{due_to_cancellation, due_to_sale, told, NUMBER_TAKEN};
use crate::bundles::BundleName;
use crate::counter::AT_TILL;
use crate::cuts::{Cut, CutOff, Knife};
use crate::holds::Check;
use crate::met::Event;
use crate::riders::another_question;
use crate::season::Season;
use crate::tally::{price, Keeper, PassageId, Standing};
use crate::till::Done;

impl Season {
    pub fn cancel_some(&mut self, post: usize) {
        let Some(id) = self.some_passage(post) else { return };
        let is_cut = self.is_save_cut() || self.is_save_cut();
        let mut cut = is_cut.then(|| self.cutter.drawn_at_till(&mut self.random));
        while self.cancel_once(post, id, cut) {
            self.note_restart_of_cancellation(id);
            cut = None;
        }
    }

    /// Whether the till was cut off, and the passenger waits for it to come back.
    fn cancel_once(&mut self, post: usize, id: PassageId, cut: Option<Cut>) -> bool {
        let passage = *self.tally.passage(id);
        let due = due_to_cancellation(passage.at(Keeper::Till), &passage.parts);
        let knife = Knife { cutter: &self.cutter, cut };
        let done = match self.posts[post].handset.cancel(passage.number, knife) {
            Ok(done) => done,
            Err(refusal) => {
                self.holds.hold_equal(told(Err(refusal)), due, AT_TILL, format!("cancellation {:?}", passage.number));
                return false;
            }
        };
        if let Some(receipt) = done.told {
            self.hold_told(receipt, due, id);
            self.note_cancelled(passage.at(Keeper::Till), &done);
        }
        if done.told.is_some() || CutOff::is_saved(done.cut_off) {
            self.tally.cancel(id);
        }
        let Some(cut_off) = done.cut_off else { return false };
        self.note_cut(Keeper::Till, cut_off);
        self.restart(post);
        done.told.is_none()
    }

    fn note_cancelled(&mut self, standing: Standing, done: &Done) {
        self.met.note(if standing == Standing::Live { Event::Cancelled } else { Event::CancelledTwice });
        self.met.note_if(standing == Standing::Live && !done.by_current_book, Event::CancelledInEarlierBook);
    }

    fn note_restart_of_cancellation(&mut self, id: PassageId) {
        let is_saved = self.tally.passage(id).at(Keeper::Till) == Standing::Cancelled;
        self.met.note(if is_saved { Event::CancellationFoundSaved } else { Event::CancelledAfterRestart });
    }

    /// The ticket of a sale that was made before, by the bundle that the till has now.
    pub fn print_again(&mut self, post: usize) {
        let Some(id) = self.some_passage(post) else { return };
        let passage = *self.tally.passage(id);
        let due = due_to_sale(passage.at(Keeper::Till), &passage.parts);
        let answer = self.sell(post, passage.number, &passage.question, None);
        self.met.note(Event::PrintedAgain);
        let is_by_earlier = answer.as_ref().is_ok_and(|done| !done.by_current_book);
        self.met.note_if(is_by_earlier, Event::PrintedAgainFromEarlierBook);
        let bundle = self.posts[post].bundle;
        self.note_bundle_sent_by(id, bundle);
        let answer = answer.map(|done| done.told.expect("nothing cut the till off"));
        self.holds.hold_equal(told(answer), due, AT_TILL, format!("sale {:?} once more", passage.number));
    }

    /// What another bundle would have made of the sale.
    pub fn note_bundle_sent_by(&mut self, id: PassageId, bundle: BundleName) {
        let passage = self.tally.passage(id);
        match price(self.bundles.named(bundle).bytes, &passage.question) {
            Ok(parts) => self.met.note_if(parts != passage.parts, Event::BundlePricesOtherwise),
            Err(_) => self.met.note(Event::BundleRefusesIt),
        }
    }

    /// On purpose: another question under a number that was given.
    pub fn use_number_twice(&mut self, post: usize) {
        let Some(id) = self.some_passage(post) else { return };
        let passage = *self.tally.passage(id);
        let other = another_question(&mut self.random, &passage.question);
        let is_in_earlier = !self.is_in_current_book(post, passage.number);
        let before = self.posts[post].handset.shelf().books().to_vec();
        let answer = self.sell(post, passage.number, &other, None);
        let number = answer.as_ref().err().map(|refusal| refusal.reason.number());
        self.holds.hold_equal(number, Some(NUMBER_TAKEN), AT_TILL, format!("another sale {:?}", passage.number));
        let is_unchanged = self.posts[post].handset.shelf().books() == before;
        self.holds.hold(is_unchanged, Check::Unchanged(Keeper::Till), || format!("{:?}", passage.number));
        self.met.note(if is_in_earlier { Event::TakenInEarlierBook } else { Event::TakenAtTill });
        self.met.note_if(passage.at(Keeper::Till) == Standing::Cancelled, Event::TakenByCancelled);
        self.send_another_question(id, &other);
    }

    fn is_in_current_book(&self, post: usize, number: SaleNumber) -> bool {
        let current = self.posts[post].handset.shelf().books().last();
        current.is_some_and(|book| book.find(number).is_ok_and(|sale| sale.is_some()))
    }
}
