//! Sheets worked through by hand.

mod appendix_b;
mod marked;
mod row;

pub use appendix_b::APPENDIX_B;
pub use marked::MARKED;
pub use row::Example;
