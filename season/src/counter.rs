//! At the till: parties ask for tickets, and wait where the till is cut off before they have one.

use offers::{Receipt, Refusal, SaleNumber};
use second::fare::Parts;
use second::question::Question;
use second::refusal::Refusal as SecondRefusal;

use crate::answers::{due_refusal, due_to_sale, told, Answer};
use crate::bundles::BundleName;
use crate::cuts::{Cut, CutOff, Knife};
use crate::holds::Check;
use crate::met::Event;
use crate::riders::{asked_of_engine, drawn_question};
use crate::season::Season;
use crate::tally::{price, Keeper, PassageId, Standing};
use crate::till::Done;

const PASSENGER_LEAVES_ONE_IN: u64 = 6;
pub const AT_TILL: Check = Check::Answer(Keeper::Till);

/// Those who ask for a ticket, under the number that the till took for them.
struct Party {
    question: Question,
    number: SaleNumber,
    /// Once they are sold one.
    passage: Option<PassageId>,
    /// The bundle of the attempt before, which was cut off.
    tried_by: Option<BundleName>,
}

impl Season {
    pub fn serve(&mut self, post: usize) {
        let question = drawn_question(&mut self.random, self.today);
        let number = self.posts[post].handset.next_number();
        let due = self.tally.next_sequence(number.till);
        let of_next = format!("the next of till {}", number.till);
        self.holds.hold_equal(number.sequence, due, Check::Numbers(Keeper::Till), of_next);
        let mut party = Party { question, number, passage: None, tried_by: None };
        while self.serve_once(post, &mut party) {}
    }

    /// Whether the till was cut off, and the party waits for it to come back.
    fn serve_once(&mut self, post: usize, party: &mut Party) -> bool {
        let due = price(self.bundle_at(post).bytes, &party.question);
        let cut = self.drawn_cut(post);
        let books = self.posts[post].handset.shelf().books().len();
        let done = match self.sell(post, party.number, &party.question, cut) {
            Ok(done) => done,
            Err(refusal) => {
                self.hold_nothing_sold(post, party, refusal, due);
                return false;
            }
        };
        let is_book_begun = books < self.posts[post].handset.shelf().books().len() && CutOff::is_saved(done.cut_off);
        self.met.note_if(is_book_begun, Event::TillBookFull);
        self.note_restart_of(post, party, &done);
        self.count(party, &done, due);
        party.tried_by = Some(self.posts[post].bundle);
        self.is_to_be_served_again(post, party, &done)
    }

    pub fn sell(
        &mut self,
        post: usize,
        number: SaleNumber,
        question: &Question,
        cut: Option<Cut>,
    ) -> Result<Done, Refusal> {
        let bundle = self.bundles.named(self.posts[post].bundle);
        let knife = Knife { cutter: &self.cutter, cut };
        self.posts[post].handset.sell(number, &asked_of_engine(question), bundle, knife)
    }

    fn drawn_cut(&mut self, post: usize) -> Option<Cut> {
        let is_full = self.posts[post].handset.shelf().books().last().is_some_and(|book| book.is_full());
        self.is_sale_cut(is_full).then(|| self.cutter.drawn_at_till(&mut self.random))
    }

    /// The tally has a sale once its ticket is printed, or once the simulation saw it in the till's file.
    fn count(&mut self, party: &mut Party, done: &Done, due: Result<Parts, SecondRefusal>) {
        let is_sold_now = party.passage.is_none() && (done.told.is_some() || CutOff::is_saved(done.cut_off));
        let standing = if is_sold_now { Standing::Unknown } else { Standing::Live };
        if is_sold_now {
            let Ok(parts) = due else {
                return self.holds.hold_equal(done.told.map(|receipt| told(Ok(receipt))), None, AT_TILL, "a ticket");
            };
            party.passage = Some(self.tally.sell(party.number, party.question, parts, self.today));
        }
        let (Some(receipt), Some(id)) = (done.told, party.passage) else { return };
        self.met.note(Event::Sold);
        let due = due_to_sale(standing, &self.tally.passage(id).parts);
        self.hold_told(receipt, due, id);
    }

    pub fn hold_told(&mut self, receipt: Receipt, due: Answer, id: PassageId) {
        let number = self.tally.passage(id).number;
        self.holds.hold_equal(told(Ok(receipt)), due, AT_TILL, format!("sale {number:?}"));
    }

    fn hold_nothing_sold(&mut self, post: usize, party: &Party, refusal: Refusal, due: Result<Parts, SecondRefusal>) {
        let due = due.map_or_else(due_refusal, |parts| due_to_sale(Standing::Unknown, &parts));
        self.holds.hold_equal(told(Err(refusal)), due, AT_TILL, format!("{:?}", party.question));
        let is_nowhere = party.passage.is_none() && self.posts[post].handset.shelf().find(party.number).is_none();
        self.holds.hold(is_nowhere, Check::Unchanged(Keeper::Till), || format!("{:?} is booked", party.number));
        self.met.note(Event::FareRefused(refusal.reason.number() as u8));
    }

    fn note_restart_of(&mut self, post: usize, party: &Party, done: &Done) {
        let Some(tried_by) = party.tried_by else { return };
        let is_new = party.passage.is_none();
        self.met.note_if(!is_new && done.told.is_some(), Event::FoundSaved);
        self.met.note_if(is_new, Event::SoldAgain);
        self.met.note_if(is_new && tried_by != self.posts[post].bundle, Event::SoldAgainByNewerBundle);
    }

    fn is_to_be_served_again(&mut self, post: usize, party: &Party, done: &Done) -> bool {
        let Some(cut_off) = done.cut_off else { return false };
        self.note_cut(Keeper::Till, cut_off);
        self.restart(post);
        if done.told.is_some() {
            return false;
        }
        let has_left = party.passage.is_none() && self.random.one_in(PASSENGER_LEAVES_ONE_IN);
        self.met.note_if(has_left, Event::PassengerLeft);
        !has_left
    }
}
