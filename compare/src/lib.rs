//! The Rust pool under a made-up driver: its traces, and what they show of docs/RULES.md.

pub mod bounds;
pub mod card;
pub mod choose;
pub mod count;
pub mod crowd;
pub mod damage;
pub mod generate;
pub mod invent;
pub mod judge;
pub mod lent;
pub mod manager;
pub mod program;
pub mod random;
pub mod replay;
pub mod rules;
pub mod scale;
pub mod session;
pub mod text;
pub mod words;
