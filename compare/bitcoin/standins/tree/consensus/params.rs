//! Stand-in: a name that is passed on.

pub struct Params;
