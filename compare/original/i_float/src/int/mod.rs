pub mod number;
pub mod point;
