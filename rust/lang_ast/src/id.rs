//! Numbers of expressions, names and texts, each with the tree that it belongs to; and which image a table is of.

use std::sync::atomic::{AtomicU64, Ordering};

macro_rules! own_number {
    ($(#[$doc:meta])* $name:ident) => {
        $(#[$doc])*
        #[derive(Clone, Copy, Debug, PartialEq, Eq, PartialOrd, Ord, Hash)]
        pub(crate) struct $name(u64);

        impl $name {
            /// One that nothing else has.
            pub(crate) fn fresh() -> Self {
                static NEXT: AtomicU64 = AtomicU64::new(0);
                $name(NEXT.fetch_add(1, Ordering::Relaxed))
            }
        }
    };
}

own_number! {
    /// A tree, or an image that was not made from one. An image of a tree keeps the tree's: its numbers are the tree's.
    TreeId
}

own_number! {
    /// An accepted image and its clones: what their tables carry. Two images of one tree differ, since a table hangs on
    /// the entry too.
    ImageId
}

macro_rules! id {
    ($name:ident, $what:literal) => {
        #[doc = concat!($what, " of one tree, and of the images and answers that come from it.")]
        #[derive(Clone, Copy, Debug, PartialEq, Eq, PartialOrd, Ord, Hash)]
        pub struct $name {
            pub(crate) tree: TreeId,
            pub(crate) number: u16,
        }

        impl $name {
            /// Its place in the table of the image, from 0.
            #[must_use]
            pub fn number(self) -> u16 {
                self.number
            }

            pub(crate) fn new(tree: TreeId, number: u16) -> Self {
                $name { tree, number }
            }

            /// Its place, where it belongs to this tree.
            pub(crate) fn place_in(self, tree: TreeId) -> Option<usize> {
                (self.tree == tree).then(|| self.number.into())
            }
        }
    };
}

id!(ExprId, "An expression");
id!(NameId, "A name that something binds");
id!(TextId, "A text");
