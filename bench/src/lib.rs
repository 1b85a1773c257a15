//! Two planners to time the proved one against, the maps and trips to time them on, and how times are taken and told.

pub mod answer;
pub mod ban_days;
pub mod journeys;
pub mod machine;
pub mod map_bytes;
pub mod maps;
pub mod ordinary;
pub mod planning;
pub mod previews;
pub mod strong;
pub mod table;
pub mod timing;
pub mod trip;
pub mod trips;

#[cfg(test)]
mod tests;
