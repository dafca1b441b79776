//! The panel's functions, tried from outside against an independent model, an exhaustive search and a checker.

pub mod area;
pub mod cases;
pub mod catalogue;
pub mod catalogues;
pub mod checker;
pub mod compare;
pub mod desk;
pub mod edit;
pub mod edits;
pub mod model;
pub mod panel;
pub mod random;
pub mod reason;
pub mod reasons;
pub mod search;
pub mod text;
pub mod texts;
pub mod worked;
