//! Stand-in: names the given files of this folder and the stand-ins beside them.
pub mod cmpnt;
pub mod cmpnt_list;
pub mod lincomb;
pub mod term_set;
pub mod terms;
