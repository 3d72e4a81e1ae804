//! Mistakes on purpose, in groups.

/// An enum of all, and a list for each group.
macro_rules! slips {
    ($($group:ident { $($name:ident)* })*) => {
        #[derive(Clone, Copy, PartialEq, Debug)]
        pub enum Slip {
            $($($name,)*)*
        }

        $(pub const $group: &[Slip] = &[$(Slip::$name,)*];)*
    };
}
