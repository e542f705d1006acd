//! Stand-in for src/expr/visitors: named by `rewrite_not` only; never run.
pub(crate) mod rewrite_not {
    pub struct RewriteNotVisitor;
    impl RewriteNotVisitor {
        pub fn new() -> Self {
            RewriteNotVisitor
        }
    }
}
pub(crate) mod predicate_visitor {
    use crate::expr::Predicate;
    pub(crate) fn visit(_: &mut super::rewrite_not::RewriteNotVisitor, _: &Predicate) -> crate::Result<Predicate> {
        unimplemented!("stand-in")
    }
}
pub(crate) mod bound_predicate_visitor {
    use crate::expr::BoundPredicate;
    pub(crate) fn visit(
        _: &mut super::rewrite_not::RewriteNotVisitor,
        _: &BoundPredicate,
    ) -> crate::Result<BoundPredicate> {
        unimplemented!("stand-in")
    }
}
