//! Ancillary payments of one gas day, written from document 01 (the scope), document 02's requests F-7, F-6, F-2,
//! F-5 and F-1 and the functional design (FD).

pub mod cut;
pub mod figures;
pub mod generate;
pub mod k10;
pub mod k3_to_k7;
pub mod layout;
pub mod line_part;
pub mod matching;
pub mod pack;
pub mod payments;
pub mod pools;
pub mod quantities;
pub mod refusal;
pub mod report;
pub mod settle;
pub mod table1;
pub mod totals;
pub mod uplift;
pub mod view;
