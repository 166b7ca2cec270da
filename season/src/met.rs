//! What a season met. A kind of event that never came up is a hole, and what it would have shown was not shown.

use std::collections::BTreeMap;

use crate::tally::Keeper;

macro_rules! events {
    ($($name:ident $text:literal)*) => {
        #[derive(Clone, Copy, Debug, PartialEq, Eq, PartialOrd, Ord)]
        pub enum Event {
            $($name,)*
            FareRefused(u8),
            CutAtStep(Keeper, usize),
        }

        const PLAIN: &[Event] = &[$(Event::$name),*];

        fn text_of(event: Event, steps: &[String]) -> String {
            match event {
                $(Event::$name => $text.to_string(),)*
                Event::FareRefused(number) => format!("fare: refused by {number}, and nothing booked"),
                Event::CutAtStep(keeper, step) => format!("cut: {keeper}, before step {}, {}", step + 1, steps[step]),
            }
        }
    };
}

events! {
    Sold "sale: ticket printed"
    Cancelled "sale: cancelled"
    CancelledTwice "sale: cancelled again"
    CancelledInEarlierBook "sale: cancelled in an earlier book of the till"
    PrintedAgain "sale: ticket printed again"
    PrintedAgainFromEarlierBook "sale: ticket printed again from an earlier book of the till"
    LostBeforeSend "signal: lost before the office had the message"
    LostDuringSend "signal: lost as the office was cut off, with nothing saved"
    LostAfterSave "signal: lost as the office was cut off, with the change saved"
    LostAnswer "signal: lost on the way back, so that only the answer was lost"
    Answered "signal: held until the answer came"
    UploadTwice "upload: came again"
    UploadLate "upload: came on a later day"
    UploadOutOfOrder "upload: came after a later one"
    UploadHeldUp "upload: was under way for some time"
    UploadDoubled "upload: was doubled under way"
    CancellationBeforeSale "upload: cancellation before its sale, refused by 25"
    CancellationTwice "upload: cancellation came again"
    CancelledSaleAgain "upload: cancelled sale came again"
    OfficeAskedEarlierBook "upload: came again, and an earlier book of the office had it"
    OfficeCancelledInEarlierBook "upload: cancellation of a sale in an earlier book of the office"
    BundleChanged "bundle: another one at the till when it sent than when it sold"
    BundlePricesOtherwise "bundle: sent again by one that prices it otherwise"
    BundleRefusesIt "bundle: sent again by one that refuses it"
    BundleLackedByOffice "bundle: named to the office before it had it, and not answered"
    BundleDamaged "bundle: damaged, refused, and nothing sold by it"
    TillBookFull "book: full at the till, the next one begun"
    OfficeBookFull "book: full at the office, the next one begun"
    TillBookFlipped "book: bit flipped at a till, refused, restored"
    TillBookTorn "book: torn at a till, refused, restored"
    OfficeBookFlipped "book: bit flipped at the office, refused, restored"
    OfficeBookTorn "book: torn at the office, refused, restored"
    TillBookMissing "book: an earlier one missing at a till, refused, restored"
    OfficeBookMissing "book: an earlier one missing at the office, refused, restored"
    OfficeTookOver "book: all lost at the office, and taken over from the till"
    TillTookOver "book: all lost at a till, and taken over from the office"
    TakenAtTill "number: taken at the till by another question, 23"
    TakenInEarlierBook "number: taken in an earlier book of the till, 23"
    TakenByCancelled "number: taken by a cancelled sale, 23"
    TakenAtOffice "number: taken at the office by another question, 23"
    CutBeforeOutbox "cut: the till, before it noted what to send"
    CutBeforeSave "cut: before a save began"
    CutAfterSave "cut: after a save, and before anything was told"
    CutWithinBytes "cut: within the bytes of a write"
    CutWithPower "cut: with the power, so that what was not flushed was lost"
    CutByFullDisk "cut: save refused by a full disk"
    CutLeftLitter "cut: an unfinished file left beside the books"
    CutInNewBook "cut: in the first save of a new book"
    FoundSaved "restart: the sale was saved, its ticket printed now"
    SoldAgain "restart: the sale was not saved, sold again under its number"
    SoldAgainByNewerBundle "restart: sold again by another bundle"
    PassengerLeft "restart: the sale was not saved, and the passenger had left"
    CancellationFoundSaved "restart: the cancellation was saved"
    CancelledAfterRestart "restart: the cancellation was not saved, cancelled again"
}

/// The numbers by which riders.rs has fares refused.
const FARES_REFUSED: [u8; 6] = [11, 12, 13, 14, 15, 17];

pub struct Met {
    times: BTreeMap<Event, u64>,
    steps: Vec<String>,
}

impl Met {
    pub fn nothing(steps: &[String]) -> Met {
        Met { times: BTreeMap::new(), steps: steps.to_vec() }
    }

    pub fn note(&mut self, event: Event) {
        *self.times.entry(event).or_default() += 1;
    }

    pub fn note_if(&mut self, is_so: bool, event: Event) {
        if is_so {
            self.note(event);
        }
    }

    fn to_be_met(&self) -> Vec<Event> {
        let refused = FARES_REFUSED.into_iter().map(Event::FareRefused);
        let keepers = [Keeper::Till, Keeper::Office].into_iter();
        let cut = keepers.flat_map(|keeper| (0..self.steps.len()).map(move |step| Event::CutAtStep(keeper, step)));
        PLAIN.iter().copied().chain(refused).chain(cut).collect()
    }

    /// What is to be met, how often it was, in the order of their texts.
    pub fn table(&self) -> Vec<(String, u64)> {
        let row = |event| (text_of(event, &self.steps), self.times.get(&event).copied().unwrap_or(0));
        let mut rows: Vec<(String, u64)> = self.to_be_met().into_iter().map(row).collect();
        rows.sort_by_key(|(text, _)| text.split(':').next().map(str::to_string));
        rows
    }
}
