//! A planner of the library as what it shares with the model.

use super::answers::{CPlan, CStage};
use super::lent::Lent;
use super::ratings::CRating;
use super::tables::LentTables;
use super::{Controller, narrow};
use crate::model::scales::Rating;
use crate::model::sheets::Operator;
use crate::planning::{Answer, Plan, Planning, Tables, ToldStage};

// Safety, of every call: the planner is as many words as the header says and made by the library, and what is lent with it is
// memory of its own, as long as the length beside it says.
impl<R: CRating> Planning for Controller<R> {
    fn renew(&mut self, limit: u64) -> Answer<()> {
        unsafe { (self.calls.new)(self.planner(), narrow(limit)) }.answer()
    }

    fn add(&mut self, operator: Operator) -> Answer<usize> {
        let [acc, cpu, size, link] = operator.figures().map(narrow);
        unsafe { (self.calls.add)(self.planner(), acc, cpu, size, link) }.answer()
    }

    fn join(&mut self, from: u64, to: u64) -> Answer<()> {
        unsafe { (self.calls.join)(self.planner(), narrow(from), narrow(to)) }.answer()
    }

    fn retime(&mut self, number: u64, operator: Operator) -> Answer<()> {
        let [acc, cpu, size, link] = operator.figures().map(narrow);
        unsafe { (self.calls.retime)(self.planner(), narrow(number), acc, cpu, size, link) }
            .answer()
    }

    fn count(&mut self, k: u64, l: u64) -> Answer<()> {
        unsafe { (self.calls.count)(self.planner(), narrow(k), narrow(l)) }.answer()
    }

    fn load(&mut self, file: &[u8]) -> Answer<()> {
        let mut lent = Lent::of(file);
        let refusal = unsafe { (self.calls.load)(self.planner(), lent.pointer(), lent.length()) };
        assert_eq!(lent.kept(), file, "a file is only read");
        refusal.answer()
    }

    fn clear(&mut self) {
        unsafe { (self.calls.clear)(self.planner()) }
    }

    fn plan(&mut self, tables: &mut Tables) -> Answer<Plan> {
        let mut lent = LentTables::of(tables);
        let LentTables {
            ideals,
            ratings,
            choices,
        } = &mut lent;
        let answered = unsafe {
            (self.calls.plan)(
                self.planner(),
                ideals.pointer(),
                ideals.length(),
                ratings.pointer(),
                ratings.length(),
                choices.pointer(),
                choices.length(),
            )
        };
        lent.hand_back(tables);
        answered.answer().map(CPlan::plan)
    }

    fn stage(&mut self, number: u64) -> Answer<ToldStage> {
        unsafe { (self.calls.stage)(self.planner(), narrow(number)) }
            .answer()
            .map(CStage::stage)
    }

    fn place(&mut self, operator: u64) -> Answer<usize> {
        unsafe { (self.calls.place)(self.planner(), narrow(operator)) }.answer()
    }

    fn rating(&mut self) -> Answer<Rating> {
        unsafe { (self.calls.rating)(self.planner()) }
            .answer()
            .map(R::rating)
    }

    fn margin(&mut self, pick: u64) -> Answer<i64> {
        unsafe { (self.calls.margin)(self.planner(), narrow(pick)) }.answer()
    }

    fn page(&mut self, buffer: &mut [u8]) -> Answer<usize> {
        let mut lent = Lent::of(buffer);
        let answered = unsafe { (self.calls.page)(self.planner(), lent.pointer(), lent.length()) };
        buffer.copy_from_slice(lent.kept());
        answered.answer()
    }

    fn write(&mut self, buffer: &mut [u8]) -> Answer<usize> {
        let mut lent = Lent::of(buffer);
        let answered = unsafe { (self.calls.write)(self.planner(), lent.pointer(), lent.length()) };
        buffer.copy_from_slice(lent.kept());
        answered.answer()
    }
}
