//! [oracle: added] The parts of `Bdd` that the supplied files use and do not hold.
//! Written after the public descriptions of biodivine-lib-bdd (apply over an explicit stack of
//! pairs, a task cache and a node cache, both hash maps with the Fx hasher).
mod _impl_apply;
mod _impl_basic;
mod _impl_cnf;
mod _impl_dnf;
