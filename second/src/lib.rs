//! The independent second program of the Shoushi calendar: the same questions as the proved program,
//! answered by document 01's procedure worked plainly, so that the two can be compared.

pub mod ask;
pub mod calendar;
pub mod desk;
pub mod facts;
pub mod input;
pub mod lines;
pub mod names;
pub mod sheet;
