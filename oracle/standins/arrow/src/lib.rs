//! Stand-in: the one name that range_join.rs uses.

pub mod array {
    pub mod builder {
        /// Whether a builder may share the cells that it is given; here it always copies them.
        #[derive(Clone, Copy, Debug)]
        pub enum ShareStrategy {
            Never,
            Always,
        }
    }
}
