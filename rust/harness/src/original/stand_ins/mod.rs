//! Stand-ins, by name, for the crates that the originals use and that are not at hand.

pub mod la_arena;
pub mod petgraph;
pub mod rustc_hash;
pub mod smol_str;

/// The types and the stack helper that the originals take from their sister crate.
pub mod lang_ty {
    #[derive(Debug, Clone, Copy, PartialEq, Eq)]
    pub enum PrimitiveTy {
        Null,
        Bool,
        Int,
        Float,
        String,
        Path,
    }

    /// The original grows the stack here; the stand-in counts, since each call is one step.
    pub mod stack {
        use std::cell::Cell;

        thread_local! {
            static STEPS: Cell<u64> = const { Cell::new(0) };
        }

        pub fn with_stack<R>(call: impl FnOnce() -> R) -> R {
            STEPS.set(STEPS.get() + 1);
            call()
        }

        /// The steps since the last time they were taken.
        pub fn take_steps() -> u64 {
            STEPS.take()
        }
    }
}

/// The operators of the parser.
pub mod rnix {
    pub mod ast {
        #[derive(Debug, Clone, Copy, PartialEq, Eq)]
        pub enum UnaryOpKind {
            Invert,
            Negate,
        }

        #[derive(Debug, Clone, Copy, PartialEq, Eq)]
        pub enum BinOpKind {
            Concat,
            Update,
            Add,
            Sub,
            Mul,
            Div,
            And,
            Equal,
            Implication,
            Less,
            LessOrEq,
            More,
            MoreOrEq,
            NotEqual,
            Or,
        }
    }
}

/// A float that compares by its order, so that literals can be compared.
pub mod ordered_float {
    #[derive(Debug, Clone, Copy)]
    pub struct OrderedFloat<T>(pub T);

    impl PartialEq for OrderedFloat<f64> {
        fn eq(&self, other: &Self) -> bool {
            self.0 == other.0 || self.0.is_nan() && other.0.is_nan()
        }
    }

    impl Eq for OrderedFloat<f64> {}
}
