//! An instance ends, with the list actions that were skipped; and what a refusal means.

use super::Words;
use crate::journal;
use crate::library::MOST_BELIEFS;
use crate::model::step::{Because, Deed, End, Origin, Refused, Step};
use crate::model::LAST_NUMBER;
use crate::replay::shown;

impl Words<'_> {
    pub(super) fn end(&self, end: &End, step: &Step, text: &mut String) {
        let who = self.who(end.who);
        let event = self.event(&end.event);
        let failed = |why: &str| match (end.event.origin, end.poster) {
            (Origin::External(number), _) => format!("{who} FAILED: {why}; event {number} is open again"),
            (_, Some(poster)) => format!("{who} FAILED: {why}; the goal of {} to {event} is open again", self.who(poster)),
            _ => format!("{who} FAILED: {why}"),
        };
        let told = match (&end.because, end.event.origin, end.poster) {
            (Because::AtItsEnd, Origin::External(number), _) => format!("{who} is done; event {number} is closed: {event}"),
            (Because::AtItsEnd, _, Some(poster)) => format!("{who} is done; {} goes on", self.who(poster)),
            (Because::AtItsEnd, _, None) => format!("{who} is done"),
            (Because::NothingLeft, _, _) => failed("nothing is left to try"),
            (Because::Broken(dead_ends), _, _) => {
                let maintenance = &self.library.plans[end.who.plan].maintenance;
                failed(&format!(
                    "its 'while' does not hold: {}",
                    self.dead_ends(maintenance, dead_ends, &end.environment, end.who.plan)
                ))
            }
        };
        text.push_str(&told);
        self.changes(&step.changes, text);
        for skipped in &end.skipped {
            let action = if skipped.removes { "remove" } else { "add" };
            let literal = self.names.literal(&skipped.literal, Some(end.who.plan));
            let why = match skipped.table_full {
                true => format!("the table has {MOST_BELIEFS} beliefs"),
                false => format!("{} unbound", self.unbound(&skipped.literal, end.who.plan)),
            };
            self.note(text, &format!("!! SKIPPED: {action} {literal}: {why}"));
        }
    }

    pub(super) fn refused(&self, refused: &Refused, step: &Step, call: &[u8], text: &mut String) {
        let number = if let Deed::Refused(number) = step.deed { number } else { 0 };
        let (what, advice) = self.refusal(refused, call);
        text.push_str(&format!("REFUSED, X {number}: {what}"));
        self.note(text, &format!("nothing was changed; {advice}"));
    }

    /// What a refusal means, and what to do.
    fn refusal(&self, refused: &Refused, call: &[u8]) -> (String, &'static str) {
        match refused {
            Refused::Unreadable => {
                let what = format!("{} cannot be read: {}", shown(call), journal::why_unreadable(call));
                (what, "mend what writes the lines")
            }
            Refused::Kind(kind) => {
                (format!("a report has kind 0 (gained), 1 (lost) or 2 (told), and this one {kind}"), "mend what writes the lines")
            }
            Refused::NotGround => ("a term is over 65527, which stands for a variable".into(), "mend what writes the lines"),
            Refused::EventsSpent => (format!("all {LAST_NUMBER} event numbers are used"), "close this journal and begin another"),
            Refused::QueueFull => ("32 reported events are open".into(), "cycle until one is closed, then report again"),
            Refused::TableFull(literal) => {
                let literal = self.names.literal(literal, None);
                let what = format!("the table has {MOST_BELIEFS} beliefs, and {literal} is none of them");
                (what, "report it again when a belief has been removed")
            }
            Refused::InstancesSpent { plan } => {
                let what = format!("{} applies, and all {LAST_NUMBER} instance numbers are used", self.names.plan(*plan));
                (what, "close this journal and begin another")
            }
            Refused::NeverMade(id) => (format!("there is no instance {id} yet"), "mend what writes the outcomes"),
            Refused::Ended(id) => (format!("instance {id} has ended"), "the answer came twice or too late: pass over it"),
            Refused::NotWaiting { who, suspended } => {
                let does = if *suspended { "waits for a goal, not for an action" } else { "waits for no action" };
                (format!("{} {does}", self.who(*who)), "the answer came twice: pass over it")
            }
        }
    }
}
