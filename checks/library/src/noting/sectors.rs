//! Sectors: what the calls without a chip answer, and what a chip was given.

use crate::call::Answer;
use crate::happenings::{judged_name, sealed_name, stored_kind_name, unknown_kind_name, Happenings};
use crate::sealing::Sealing;
use crate::sectors::{Sector, CUT_TO_FIT};
use ecma130::{Facts, Kind};

impl Happenings {
    /// What judging answers beside the chip.
    pub fn note_judged(&mut self, answer: &Answer) {
        match answer.number() {
            Some(0) => self.count(&judged_name(answer.result())),
            Some(1) => self.count("judging refused, wrong length (1)"),
            _ => self.count("judging refused, bad address (3)"),
        }
    }

    pub fn note_sealed(&mut self, answer: &Answer) {
        match answer.number() {
            Some(0) => self.count("sector sealed over stale bytes"),
            Some(1) => self.count("sealing refused, wrong length (1)"),
            _ => self.count("sealing refused, bad address (3)"),
        }
    }

    /// Of what is wrong but for the length, each alone.
    pub fn note_sealed_xa(&mut self, answer: &Answer, sealing: &Sealing) {
        let (kind, valid) = (Kind::of_number(sealing.kind), sealing.address.is_valid());
        let agrees = kind.is_none_or(|kind| kind.agrees_with(sealing.subheader));
        match (answer.number(), kind) {
            (Some(1), kind) => {
                let all_wrong = kind.is_none() && !valid;
                self.count("sealing by kind refused, wrong length (1)");
                self.count_if(all_wrong, "sealing by kind refused, wrong length (1), the rest wrong too");
            }
            (Some(0), Some(kind)) => {
                let (mode_1, form_bit) = (kind == Kind::Mode1, sealing.has_form_bit());
                self.count(&sealed_name(kind));
                self.count_if(mode_1 && form_bit, "mode 1 sealed with the form bit high");
                self.count_if(mode_1 && !form_bit, "mode 1 sealed with the form bit low");
            }
            (_, None) => self.count_if(valid, &unknown_kind_name(sealing.kind)),
            (_, Some(kind)) => {
                let other_form = valid && !agrees;
                self.count_if(!valid && agrees, "sealing by kind refused, bad address (3)");
                self.count_if(other_form && kind == Kind::Form1, "sealing of form 1 refused, form bit high (3)");
                self.count_if(other_form && kind == Kind::Form2, "sealing of form 2 refused, form bit low (3)");
            }
        }
    }

    pub(super) fn note_sector_length(&mut self, sector: &Sector) {
        match sector.length {
            0 => self.count("sector of 0 bytes"),
            1 => self.count("sector of 1 byte"),
            2351 => self.count("sector of 2,351 bytes"),
            2353 => self.count("sector of 2,353 bytes"),
            CUT_TO_FIT => self.count("sector of 2,352 and 65,536 bytes"),
            _ => {}
        }
    }

    /// A sector that a chip took, and what it told of it.
    pub(super) fn note_taken(&mut self, sector: &Sector, facts: Facts) {
        let (kind, damage) = (sector.kind, sector.damage);
        if damage.rule {
            self.count("sector whose kind was changed");
            self.count_if(facts.why() == 6, "sector whose kind was changed, mode and EDC (6)");
            self.count_if(facts.why() == 2, "sector whose kind was changed, EDC (2)");
            return;
        }
        let (good, right_parity) = (!damage.is_judged(), kind.has_parity() && !damage.parity);
        let without_code = kind == Kind::Form2 && damage.without_code && !damage.code;
        self.count(&stored_kind_name(kind, facts.why() as u32));
        self.count_if(good, "good sector");
        self.count_if(good && kind.has_parity() && damage.parity, "good sector with wrong parity");
        self.count_if(good && kind == Kind::Form1 && damage.parity, "good sector of form 1 with wrong parity");
        self.count_if(good && without_code, "good sector of form 2 without EDC");
        self.count_if(!good && without_code, "bad sector of form 2 without EDC");
        self.count_if(!good && right_parity, "bad sector with right parity");
        self.count_if(good && kind == Kind::Mode1 && damage.zeros, "good sector with other bytes for its zeros");
        self.count_if(damage.bits() == 0x41, "sector with STAERR and HCEI");
    }
}
