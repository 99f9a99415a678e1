//! What each function can be refused by: one table, for the `# Errors` of every function and for the test that holds it against recorded answers.
use crate::Refusal;

macro_rules! table {
    ($($name:ident: $first:ident $($refusal:ident)*;)*) => {
        /// By the name of a function, every refusal that it can give, in rising order. Functions on lent words (module [`lent`](crate::lent)) give
        /// [`Refusal::Broken`] besides.
        ///
        /// ```
        /// use dual_ledger::{Refusal, REFUSALS};
        /// let (_, fuse) = REFUSALS.iter().find(|(name, _)| *name == "fuse").unwrap();
        /// assert_eq!(fuse, &[Refusal::Unit, Refusal::Child, Refusal::Pair, Refusal::Used, Refusal::Mark]);
        /// ```
        pub const REFUSALS: &[(&str, &[Refusal])] = &[$((stringify!($name), &[Refusal::$first, $(Refusal::$refusal),*])),*];

        /// The `# Errors` of a function.
        macro_rules! errors {
            $(($name) => { concat!("\n# Errors\n[`", stringify!($first), "`](Refusal::", stringify!($first), ")"
                $(, " [`", stringify!($refusal), "`](Refusal::", stringify!($refusal), ")")*) };)*
        }
    };
}

table! {
    set_up: Worn;
    create_defect_node: Unit Child Full Worn;
    create_blossom: Unit Child Circle Touch Stale Foreign Inside Twice Full Worn;
    expand_blossom: Unit Child Stale Foreign Kind Inside;
    set_grow_state: Unit Child Stale Foreign Inside;
    grow: Unit Child Length Below;
    grow_recorded: Broken Unit Child Length Nothing Below Stuck Short;
    grow_recorded_into: Broken Unit Child Length Small Nothing Below Stuck Short;
    fuse: Unit Child Pair Used Mark;
    clear: Unit Child;
    mark_filling: Unit Child Mark;
    mark_floored: Unit Child Mark;
    sum_dual_variables: Unit Child;
    sum_grow_speed: Unit Child;
    nodes_count: Unit Child;
    is_filling: Unit Child;
    is_floored: Unit Child;
    get_node: Unit Child Range;
    present_count: Unit Child;
    next_present: Unit Child Range;
    check_ptr_belonging: Unit Child;
    get_dual_variable: Stale;
    get_ancestor_blossom: Stale;
    get_secondary_ancestor_blossom: Stale Top;
    get_representative_vertex: Stale;
    get_all_vertices: Stale;
    get_all_vertices_into: Stale Small;
    sanity_check: Unit Child;
    strict_check: Unit Child;
    snapshot: Unit Child Unsound;
    snapshot_into: Unit Child Small Unsound;
    add: Stale Room;
    extend: Stale Room;
    get_none_zero_growth: Nothing;
    pop: Kind;
    pop_sparing_stops: Kind;
    peek: Kind;
    get: Range File;
    get_into: Range Small File;
    to_bytes: File;
    to_bytes_into: Small File;
    to_text: SelfPair File;
    to_text_into: Small SelfPair File;
}
