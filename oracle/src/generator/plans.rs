//! The plans: which moves, how often, over how many interfaces.
use super::{Move, Plan, Player};

const P: (Move, Move, Move, Move) = (Player::defect, Player::blossom, Player::expand, Player::state);

pub const CALLS: Plan = Plan {
    name: "calls",
    about: "shots on one interface or two fused ones, as a decoder makes them",
    units: 3,
    vertices: 100_000,
    circle: 5,
    odd: 0,
    moves: &[
        (26, P.0),
        (12, P.1),
        (8, P.2),
        (22, P.3),
        (26, Player::grow),
        (3, Player::fuse),
        (2, Player::clear),
        (3, Player::of_node),
        (2, Player::of_face),
    ],
};

pub const TREES: Plan = Plan {
    name: "trees",
    about: "fuses of fused trees, blossoms across halves, expansions in either half, clears of trees and use after them",
    units: 8,
    vertices: 2_000,
    circle: 4,
    odd: 0,
    moves: &[
        (26, P.0),
        (22, P.1),
        (12, P.2),
        (12, P.3),
        (8, Player::grow),
        (8, Player::fuse),
        (2, Player::clear),
        (6, Player::of_node),
        (3, Player::handle_at),
        (3, Player::belongs),
        (2, Player::check),
        (2, Player::of_face),
    ],
};

pub const NESTS: Plan = Plan {
    name: "nests",
    about: "blossoms in blossoms",
    units: 5,
    vertices: 5_000,
    circle: 2,
    odd: 0,
    moves: &[
        (18, P.0),
        (40, P.1),
        (6, P.2),
        (8, P.3),
        (8, Player::grow),
        (3, Player::fuse),
        (12, Player::of_node),
        (4, Player::vertices_of),
        (1, Player::clear),
        (2, Player::of_face),
    ],
};

pub const GROUPS: Plan = Plan {
    name: "groups",
    about: "obstacle groups over nodes that come and go",
    units: 4,
    vertices: 12,
    circle: 3,
    odd: 0,
    moves: &[
        (8, P.0),
        (4, P.1),
        (2, P.2),
        (1, Player::grow),
        (1, Player::fuse),
        (10, Player::add_growth),
        (12, Player::add_conflict),
        (22, Player::add_stop),
        (12, Player::extend),
        (12, Player::take),
        (13, Player::of_group),
        (14, Player::new_group),
        (1, Player::wrong_add),
        (1, Player::clear),
    ],
};

pub const REFUSALS: Plan = Plan {
    name: "refusals",
    about: "calls with something wrong, or several things at once",
    units: 8,
    vertices: 300,
    circle: 4,
    odd: 10,
    moves: &[
        (12, P.0),
        (14, P.1),
        (2, P.2),
        (2, P.3),
        (2, Player::grow),
        (4, Player::fuse),
        (34, Player::wrong_call),
        (18, Player::wrong_blossom),
        (14, Player::wrong_read),
        (8, Player::wrong_add),
        (4, Player::extend),
        (5, Player::take),
        (2, Player::of_group),
        (2, Player::add_growth),
        (1, Player::wrong_clear),
    ],
};

pub const READS: Plan = Plan {
    name: "reads",
    about: "every read of everything, between calls of all kinds",
    units: 8,
    vertices: 300,
    circle: 3,
    odd: 5,
    moves: &[
        (10, P.0),
        (6, P.1),
        (3, P.2),
        (4, P.3),
        (4, Player::grow),
        (3, Player::fuse),
        (1, Player::clear),
        (16, Player::of_face),
        (10, Player::handle_at),
        (8, Player::belongs),
        (24, Player::of_node),
        (10, Player::vertices_of),
        (4, Player::check),
        (2, Player::add_stop),
        (3, Player::of_group),
    ],
};

pub const VERDICTS: Plan = Plan {
    name: "verdicts",
    about: "touching pairs of all kinds, and what the checks find",
    units: 3,
    vertices: 1_500,
    circle: 3,
    odd: 45,
    moves: &[
        (18, P.0),
        (20, P.1),
        (9, P.2),
        (2, P.3),
        (1, Player::grow),
        (3, Player::fuse),
        (2, Player::clear),
        (12, Player::bereave),
        (42, Player::check),
        (2, Player::of_face),
        (1, Player::add_conflict),
        (1, Player::take),
    ],
};

/// Interfaces with modes, which the original has not, among others without.
pub const MARKS: Plan = Plan {
    name: "marks",
    about: "interfaces that fill emptied slots, alone and in trees with others that do not, and floored trees",
    units: 8,
    vertices: 900,
    circle: 3,
    odd: 12,
    moves: &[
        (8, Player::mark),
        (2, Player::wrong_mark),
        (16, P.0),
        (22, P.1),
        (20, P.2),
        (10, P.3),
        (12, Player::grow),
        (5, Player::fuse),
        (1, Player::clear),
        (2, Player::bereave),
        (5, Player::check),
        (3, Player::of_face),
        (1, Player::of_mode),
        (4, Player::handle_at),
        (4, Player::of_node),
        (2, Player::belongs),
        (1, Player::wrong_call),
    ],
};

/// What the text program can say, all accepted.
pub const TEXT: Plan = Plan {
    name: "text",
    about: "accepted lines of the text program",
    units: 8,
    vertices: 100_000,
    circle: 4,
    odd: 0,
    moves: &[
        (26, P.0),
        (10, Player::plain_blossom),
        (1, Player::wide_blossom),
        (8, P.2),
        (22, P.3),
        (22, Player::grow),
        (3, Player::fuse),
        (1, Player::clear),
        (8, Player::make_room),
        (4, Player::plain_check),
    ],
};

/// What the text program can say, much of it refused.
pub const MIXED: Plan = Plan {
    name: "mixed",
    about: "lines of the text program with something wrong among them",
    moves: &[
        (20, P.0),
        (9, Player::plain_blossom),
        (4, P.2),
        (6, P.3),
        (6, Player::grow),
        (3, Player::fuse),
        (1, Player::clear),
        (8, Player::make_room),
        (4, Player::plain_check),
        (30, Player::wrong_text),
        (2, Player::wrong_clear),
    ],
    ..TEXT
};

/// The plans of calls that the original has.
pub const ALL: [Plan; 7] = [CALLS, TREES, NESTS, GROUPS, REFUSALS, READS, VERDICTS];
