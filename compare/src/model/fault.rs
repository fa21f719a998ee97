//! The faults of document 01's "Faults that pass a first trial", bundles that
//! are not #101's, searches that are refused otherwise than #102 says, meetings
//! that write a link wrongly, #103, searches that meet leaving lots otherwise
//! than #104 says, reservations that are not #105's, crashes, checks and searches of
//! several components that are not #106's, and merges that are not #107's. Only a test
//! can switch one on, to see that it is caught.

#[cfg(test)]
use super::wrong_bundle::WrongBundle;
#[cfg(test)]
use super::wrong_check::WrongCheck;
#[cfg(test)]
use super::wrong_crash::WrongCrash;
#[cfg(test)]
use super::wrong_find::WrongFind;
#[cfg(test)]
use super::wrong_holder::WrongHolder;
#[cfg(test)]
use super::wrong_meet::WrongMeet;
#[cfg(test)]
use super::wrong_merge::WrongMerge;
#[cfg(test)]
use super::wrong_reserved::WrongReserved;
#[cfg(test)]
use super::wrong_reserving::WrongReserving;
use super::Model;
#[cfg(test)]
use crate::call::{Answer, Call};

#[derive(Clone, Copy, PartialEq, Eq, Debug)]
pub(crate) enum Fault {
    OldNeighbourDropped,
    NoPull,
    LeaverAltersItsLinks,
    BitsFromTheLowEnd,
    ProbeAtLevel8,
    ReservedIsMember,
    #[cfg(test)]
    Bundle(WrongBundle),
    #[cfg(test)]
    Find(WrongFind),
    #[cfg(test)]
    Meet(WrongMeet),
    #[cfg(test)]
    Holder(WrongHolder),
    #[cfg(test)]
    Reserved(WrongReserved),
    #[cfg(test)]
    Reserving(WrongReserving),
    #[cfg(test)]
    Crash(WrongCrash),
    #[cfg(test)]
    Merge(WrongMerge),
    #[cfg(test)]
    Check(WrongCheck),
    /// Among all lots, not those of the start's component.
    #[cfg(test)]
    SeeksAmongAll,
}

impl Model {
    #[cfg(test)]
    pub(crate) fn with_fault(fault: Fault) -> Model {
        Model::open().and_fault(fault)
    }

    #[cfg(test)]
    pub(crate) fn and_fault(self, fault: Fault) -> Model {
        let fault = Some(fault);
        Model { fault, ..self }
    }

    /// What a model with a fault of #105 to #107 makes of a call; none without one.
    #[cfg(test)]
    pub(crate) fn wrong_call(&mut self, call: Call) -> Option<Answer> {
        let mut fault = self.fault;
        let answer = match &mut fault {
            Some(Fault::Reserved(wrong)) => {
                self.fault = None;
                self.with_reserved(*wrong, call)
            }
            Some(Fault::Reserving(wrong)) => {
                self.fault = None;
                self.with_reserving(wrong, call)
            }
            Some(Fault::Crash(wrong)) => {
                self.fault = None;
                self.with_crash(*wrong, call)
            }
            Some(Fault::Merge(wrong)) => {
                self.fault = None;
                self.with_merge(*wrong, call)
            }
            Some(Fault::SeeksAmongAll) => {
                self.fault = None;
                self.seek_among_all(call)
            }
            _ => return None,
        };
        self.fault = fault;
        Some(answer)
    }

    #[cfg(test)]
    pub(super) fn has_fault(&self, fault: Fault) -> bool {
        self.fault == Some(fault)
    }

    #[cfg(not(test))]
    pub(super) fn has_fault(&self, _: Fault) -> bool {
        false
    }
}
