//! Deliberate faults: each is one slip that an implementer could make. The program with a slip stands in the
//! place of the one under test, to show that the comparison would notice it.

mod answer;
mod authentication;
mod calls;
mod decisions;
mod easily_made;
mod editions;
mod fault;
mod features;
mod list;
mod peers;
mod place;
mod plain;
mod reading;
mod report;
mod row;
mod sets;
mod silent;
mod table;
mod take;
mod voicemail;

pub use fault::{Fault, Listed};

/// At most one deliberate fault; the true program has none.
#[derive(Clone, Copy)]
pub struct Slip(pub Option<Fault>);

impl Slip {
    pub const NONE: Slip = Slip(None);

    pub fn of(fault: Fault) -> Slip {
        Slip(Some(fault))
    }

    #[inline(always)]
    pub fn is(self, fault: Fault) -> bool {
        self.0 == Some(fault)
    }

    /// As the plain engine has it: a fault that it alone has is one of its own, or one that the others could have too.
    pub fn in_plain(self) -> Slip {
        match plain::DONE.iter().find(|(own, _)| self.is(*own)) {
            Some((_, done)) => Slip::of(*done),
            None => self,
        }
    }

    /// As every other entry has it: what the plain engine alone does wrong is no fault there.
    pub fn in_others(self) -> Slip {
        match self.0 {
            Some(fault) if is_plains(fault) => Slip::NONE,
            _ => self,
        }
    }
}

/// Whether the plain engine alone has it.
pub fn is_plains(fault: Fault) -> bool {
    fault.section() == plain::FAULTS[0].fault.section()
}

/// Every deliberate fault that a case can show, by the documents' sections.
pub fn faults() -> impl Iterator<Item = &'static Listed> {
    let of_01 = [easily_made::FAULTS, calls::FAULTS, table::FAULTS, reading::FAULTS, decisions::FAULTS, answer::FAULTS];
    let of_02 = [
        authentication::FAULTS,
        place::FAULTS,
        report::FAULTS,
        editions::FAULTS,
        sets::FAULTS,
        take::FAULTS,
        peers::FAULTS,
        features::FAULTS,
        voicemail::FAULTS,
        plain::FAULTS,
        list::FAULTS,
        row::FAULTS,
    ];
    of_01.into_iter().chain(of_02).flatten()
}

/// Those that no case can show.
pub const SILENT: &[Listed] = silent::FAULTS;

pub fn by_name(name: &str) -> Option<Fault> {
    faults().chain(SILENT).find(|it| it.name == name).map(|it| it.fault)
}

#[cfg(test)]
mod tests {
    use super::*;
    use std::collections::BTreeSet;

    #[test]
    fn each_fault_has_a_number_of_its_own() {
        let numbers: BTreeSet<u16> = faults().chain(SILENT).map(|it| it.fault.0).collect();
        assert_eq!(numbers.len(), faults().chain(SILENT).count());
    }

    #[test]
    fn the_plain_engines_faults_are_those_that_are_named_so() {
        for it in faults() {
            assert_eq!(is_plains(it.fault), it.name.starts_with("Plain"), "{}", it.name);
            assert_eq!(is_plains(it.fault), Slip::of(it.fault).in_others().0.is_none());
        }
        for (_, done) in plain::DONE {
            assert!(Slip::of(*done).in_plain().is(*done));
        }
    }
}
