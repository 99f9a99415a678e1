//! The original dual module as oracle: driven line by line, beside a plain model of the manual. oracle/README.md says how it is used.

pub mod ages;
pub mod bare;
pub mod coverage;
pub mod driver;
pub mod generator;
pub mod line;
pub mod model;
pub mod pairs;
pub mod panics;
pub mod recording;
pub mod recordings;
pub mod replay;
pub mod scenes;
pub mod shots;
pub mod show;
pub mod stub;
pub mod text;
pub mod timing;
