//! The functions of the archives through the Rust binding, as a C program calls them; and the reference's answers in their form.

use mewikofu::raw::Cut;
pub use mewikofu::raw::{cut, line_part, line_views, settle, uplift, view, View};
use reference::{cut, view};

/// The view that is the reference's.
pub fn expected_view(answer: view::View) -> View {
    View {
        initial: answer.initial,
        revised: answer.revised,
        modified: answer.modified,
        finals: answer.finals,
        number: answer.number,
        end: answer.upper,
        width: answer.width,
        actual: answer.actual,
        price: answer.price,
        flag: answer.flag,
        operating: answer.operating,
        pricing: answer.pricing,
        agino: answer.agino,
        msiq: answer.msiq,
        constrained: answer.constrained_on,
        matches: answer.matches,
        excess: mewikofu::Excess {
            operating: answer.excess.operating,
            pricing: answer.excess.pricing,
            actual: answer.excess.actual,
        },
    }
}

/// The cut that is the reference's.
pub fn expected_cut(answer: cut::Cut) -> Cut {
    Cut {
        flags: answer.flags,
        number: answer.number,
        count: answer.count,
        missing: answer.missing,
        ends: answer.ends,
        prices: answer.prices,
        reserved: 0,
    }
}
