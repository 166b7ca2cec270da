//! Between the tills and the office: what is sent up, what arrives, and what the office answers.

use offers::SaleNumber;
use second::question::Question;

use crate::answers::{due_to_cancellation, due_to_sale, told, Answer, NUMBER_TAKEN};
use crate::cuts::{Cut, CutOff, Knife};
use crate::holds::Check;
use crate::message::{Message, What};
use crate::met::Event;
use crate::office::Reply;
use crate::outbox::Line;
use crate::riders::asked_of_engine;
use crate::season::Season;
use crate::signal::{drawn_fate, is_answer_lost, Fate, Upload};
use crate::tally::{Keeper, PassageId, Standing};

const MOST_SENT_AT_ONCE: usize = 8;
const NEWEST_BUNDLE_ONE_IN: u64 = 2;
const AT_OFFICE: Check = Check::Answer(Keeper::Office);

impl Season {
    /// Some of what the till has to send, in any order.
    pub fn send_some(&mut self, post: usize) {
        let mut lines = self.posts[post].handset.unsent();
        self.random.shuffle(&mut lines);
        lines.truncate(MOST_SENT_AT_ONCE);
        for line in lines {
            self.send(post, line);
        }
    }

    pub fn send_all(&mut self, post: usize) {
        for line in self.posts[post].handset.unsent() {
            self.send(post, line);
        }
    }

    fn send(&mut self, post: usize, line: Line) {
        let Some(message) = self.posts[post].handset.send(line) else { return };
        let number = SaleNumber { till: self.posts[post].till, sequence: line.sequence() };
        let known = self.tally.id_of(number);
        self.holds.hold(known.is_some(), Check::Numbers(Keeper::Till), || format!("{number:?} was given to nobody"));
        let Some(passage) = known else { return };
        let is_changed = matches!(line, Line::Sale { bundle, .. } if bundle != self.posts[post].bundle);
        self.met.note_if(is_changed, Event::BundleChanged);
        let message = self.by_newest_bundle(message, passage);
        self.send_upload(Upload { message, post, line, passage });
    }

    /// Where the office has the sale already, a message that names a newer bundle by mistake changes nothing.
    fn by_newest_bundle(&mut self, mut message: Message, passage: PassageId) -> Message {
        let What::Sale { question, .. } = message.what else { return message };
        let is_known = self.tally.passage(passage).at(Keeper::Office) != Standing::Unknown;
        let may_be_another = is_known || !self.plan.rules().till_names_the_bundle_of_the_sale;
        if may_be_another && self.random.one_in(NEWEST_BUNDLE_ONE_IN) {
            let bundle = self.bundles.newest();
            self.note_bundle_sent_by(passage, bundle);
            message.what = What::Sale { question, bundle };
        }
        message
    }

    fn send_upload(&mut self, upload: Upload) {
        match drawn_fate(&mut self.random) {
            Fate::LostBefore => self.met.note(Event::LostBeforeSend),
            Fate::HeldUp => {
                self.met.note(Event::UploadHeldUp);
                self.air.hold_up(&mut self.random, self.turn, upload);
            }
            Fate::Doubled => {
                self.met.note(Event::UploadDoubled);
                self.air.hold_up(&mut self.random, self.turn, upload);
                self.deliver(upload);
            }
            Fate::Arrives => self.deliver(upload),
        }
    }

    pub fn deliver_arriving(&mut self) {
        for upload in self.air.arriving(self.turn) {
            self.deliver(upload);
        }
    }

    fn deliver(&mut self, upload: Upload) {
        if self.does_office_lack_bundle(&upload) {
            return self.met.note(Event::BundleLackedByOffice);
        }
        let due = self.due_to(&upload);
        self.note_arriving(&upload);
        let cut = self.drawn_office_cut(&upload);
        let till = upload.message.number.till;
        let books = self.office.shelf(till).books().len();
        let reply = self.office.take(&upload.message, &self.bundles, Knife { cutter: &self.cutter, cut });
        let is_book_begun = books < self.office.shelf(till).books().len() && CutOff::is_saved(reply.cut_off);
        self.met.note_if(is_book_begun, Event::OfficeBookFull);
        self.note_reply(&upload, &reply);
        if let Some(answer) = reply.answer {
            self.holds.hold_equal(told(answer), due, AT_OFFICE, format!("{:?}", upload.message));
        }
        self.count_arrival(&upload, &reply);
        self.pass_on_answer(&upload, &reply);
    }

    /// The office gets a bundle when one is named that it does not have; till then it answers nothing.
    fn does_office_lack_bundle(&mut self, upload: &Upload) -> bool {
        let What::Sale { bundle, .. } = upload.message.what else { return false };
        let is_lacking = bundle > self.newest_at_office;
        if is_lacking {
            self.newest_at_office = self.bundles.newest();
        }
        is_lacking
    }

    fn due_to(&self, upload: &Upload) -> Answer {
        let passage = self.tally.passage(upload.passage);
        match upload.message.what {
            What::Sale { .. } => due_to_sale(passage.at(Keeper::Office), &passage.parts),
            What::Cancellation => due_to_cancellation(passage.at(Keeper::Office), &passage.parts),
        }
    }

    fn drawn_office_cut(&mut self, upload: &Upload) -> Option<Cut> {
        let books = self.office.shelf(upload.message.number.till).books();
        let is_full = books.last().is_some_and(|book| book.is_full());
        self.is_sale_cut(is_full).then(|| self.cutter.drawn_about_save(&mut self.random))
    }

    /// Only what the simulation saw in the office's file counts where the office was cut off.
    fn count_arrival(&mut self, upload: &Upload, reply: &Reply) {
        if !CutOff::is_saved(reply.cut_off) {
            return;
        }
        match upload.message.what {
            What::Sale { .. } => self.tally.sale_arrived(upload.passage),
            What::Cancellation => self.tally.cancellation_arrived(upload.passage),
        }
    }

    fn pass_on_answer(&mut self, upload: &Upload, reply: &Reply) {
        if let Some(cut_off) = reply.cut_off {
            self.note_cut(Keeper::Office, cut_off);
            self.met.note(if CutOff::is_saved(reply.cut_off) { Event::LostAfterSave } else { Event::LostDuringSend });
            self.restart_office();
        } else if is_answer_lost(&mut self.random) {
            return self.met.note(Event::LostAnswer);
        }
        let Some(Ok(_)) = reply.answer else { return };
        self.met.note(Event::Answered);
        self.posts[upload.post].handset.office_has_answered(upload.line);
    }

    fn note_arriving(&mut self, upload: &Upload) {
        let passage = *self.tally.passage(upload.passage);
        let standing = passage.at(Keeper::Office);
        self.met.note_if(passage.day < self.today, Event::UploadLate);
        match upload.message.what {
            What::Sale { .. } => {
                self.met.note_if(standing != Standing::Unknown, Event::UploadTwice);
                self.met.note_if(standing == Standing::Cancelled, Event::CancelledSaleAgain);
                let is_out_of_order = standing == Standing::Unknown && self.has_a_later_one(upload.passage);
                self.met.note_if(is_out_of_order, Event::UploadOutOfOrder);
            }
            What::Cancellation => {
                self.met.note_if(standing == Standing::Unknown, Event::CancellationBeforeSale);
                self.met.note_if(standing == Standing::Cancelled, Event::CancellationTwice);
            }
        }
    }

    /// Whether the office has a later sale of the till.
    fn has_a_later_one(&self, id: PassageId) -> bool {
        let ids = self.tally.ids_of_till(self.tally.passage(id).number.till).iter().rev();
        let mut later = ids.take_while(|&&later| later > id);
        later.any(|&later| self.tally.passage(later).at(Keeper::Office) != Standing::Unknown)
    }

    fn note_reply(&mut self, upload: &Upload, reply: &Reply) {
        let is_by_earlier = !reply.by_current_book && matches!(reply.answer, Some(Ok(_)));
        let event = match upload.message.what {
            What::Sale { .. } => Event::OfficeAskedEarlierBook,
            What::Cancellation => Event::OfficeCancelledInEarlierBook,
        };
        self.met.note_if(is_by_earlier, event);
    }

    /// On purpose: another question under a number that the office has.
    pub fn send_another_question(&mut self, id: PassageId, other: &Question) {
        let passage = *self.tally.passage(id);
        if passage.at(Keeper::Office) == Standing::Unknown {
            return;
        }
        let what = What::Sale { question: asked_of_engine(other), bundle: self.bundles.newest() };
        let message = Message { number: passage.number, what };
        let before = self.office.shelf(passage.number.till).books().to_vec();
        let reply = self.office.take(&message, &self.bundles, Knife { cutter: &self.cutter, cut: None });
        let number = reply.answer.and_then(|answer| answer.err()).map(|refusal| refusal.reason.number());
        self.holds.hold_equal(number, Some(NUMBER_TAKEN), AT_OFFICE, format!("another sale {:?}", passage.number));
        let is_unchanged = self.office.shelf(passage.number.till).books() == before;
        self.holds.hold(is_unchanged, Check::Unchanged(Keeper::Office), || format!("{:?}", passage.number));
        self.met.note(Event::TakenAtOffice);
    }
}
