//! A second reading of document 01, as document 02's U1 and U9 change it: of what the original does
//! not have, the stored record and the checks that come before a call's work, and of the curves,
//! which the original has for whole heights only. It follows the papers' sentences, which stand
//! beside the lines, and shares no code with the engine.
pub mod checks;
pub mod curve;
pub mod promised;
pub mod record;

mod spline;
mod tangents;
