//! Cases that were stored before C-15 with the groups of their plan in another order. They keep their bytes and are
//! refused by 32; the same cases with the groups in order are kept beside them, so that nothing goes untried.

use super::{List, Made};
use crate::generate::group_order::in_order;
use crate::stream::{Case, CHECK, FUSED, WRITE};

/// The case with the groups of its plan in order.
pub fn put_in_order(case: &Case) -> Case {
    Case {
        second: in_order(&case.second),
        ..case.clone()
    }
}

impl List {
    /// Adds cases whose plans have their groups in another order: each that takes its plan is 32. The number written
    /// beside it is that of the same case with the groups in order.
    pub(super) fn turned(&mut self, add: impl FnOnce(&mut List)) {
        self.turned = true;
        add(self);
        self.turned = false;
    }

    /// The number of a case as it stands, from the one that is written beside it.
    #[track_caller]
    pub(super) fn as_it_stands(&mut self, made: &Made, wanted: u8) -> u8 {
        if !self.turned || !matches!(made.case.operation, CHECK | WRITE | FUSED) {
            return self.today(made, wanted);
        }
        let in_order = Made {
            case: put_in_order(&made.case),
            family: "in_order",
            ..*made
        };
        let wanted = self.today(&in_order, wanted);
        let (answer, _) = in_order.case.work().expect("an operation that is built");
        assert_eq!(answer.number, wanted, "with its groups in order");
        self.in_order.push(in_order);
        32
    }
}
