//! NOT PUBLISHED: stub of a module that the published `mod.rs` names and that is not at hand.
