//! BuDDy, clause by clause, as its user would: only where the build script found it.

#[cfg(not(buddy))]
pub fn time_list(_: &crate::corpora::Case, _: usize) -> Option<f64> {
    None
}

#[cfg(buddy)]
pub use there::time_list;

#[cfg(buddy)]
mod there {
    use crate::corpora::Case;
    use differ::reading::Valuation;
    use differ::timing::{middle, time};
    use std::ffi::c_int;

    extern "C" {
        fn bdd_init(nodes: c_int, cache: c_int) -> c_int;
        fn bdd_done();
        fn bdd_setvarnum(n: c_int) -> c_int;
        fn bdd_setmaxincrease(n: c_int) -> c_int;
        fn bdd_gbc_hook(hook: Option<extern "C" fn(c_int, *const u8)>);
        fn bdd_ithvar(mark: c_int) -> c_int;
        fn bdd_nithvar(mark: c_int) -> c_int;
        fn bdd_apply(left: c_int, right: c_int, operator: c_int) -> c_int;
        fn bdd_addref(node: c_int) -> c_int;
        fn bdd_delref(node: c_int) -> c_int;
    }

    const AND: c_int = 0;
    const OR: c_int = 2;

    fn start(n: u16) {
        unsafe {
            bdd_init(100_000, 25_000);
            bdd_gbc_hook(None);
            bdd_setmaxincrease(100_000);
            bdd_setvarnum(c_int::from(n.max(1)));
        }
    }

    fn clause(v: Valuation, within: c_int) -> c_int {
        let mut made = if within == AND { 1 } else { 0 };
        for mark in (0..60).rev().filter(|mark| v.fixed >> mark & 1 == 1) {
            unsafe {
                let literal = if v.values >> mark & 1 == 1 { bdd_ithvar(mark) } else { bdd_nithvar(mark) };
                bdd_addref(made);
                let more = bdd_apply(literal, made, within);
                bdd_delref(made);
                made = more;
            }
        }
        made
    }

    fn build(case: &Case) -> c_int {
        let (within, between) = if case.builder.is_dnf() { (AND, OR) } else { (OR, AND) };
        let mut root = if case.builder.is_dnf() { 0 } else { 1 };
        for v in &case.clauses {
            let made = clause(*v, within);
            unsafe {
                bdd_addref(made);
                let more = bdd_apply(root, made, between);
                bdd_addref(more);
                bdd_delref(made);
                bdd_delref(root);
                root = more;
            }
        }
        root
    }

    /// The middle time of a list; BuDDy starts anew for each, outside the time.
    pub fn time_list(case: &Case, times: usize) -> Option<f64> {
        let once = || {
            start(case.n);
            let taken = time(|| assert!(std::hint::black_box(build(case)) >= 0));
            unsafe { bdd_done() };
            taken
        };
        Some(middle((0..times).map(|_| once()).collect()))
    }
}
