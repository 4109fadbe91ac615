//! The command, run as a user would.

mod descriptors;
mod files;
mod help;
mod in_place;
mod interrupted;
mod kept;
mod meant;
mod output;
mod pairs;
mod paths;
mod recognised;
mod refusals;
mod reports;
mod run;
mod services;
mod several;
mod terminal;
mod together;
mod usage;
