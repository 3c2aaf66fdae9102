//! The generators of cases: columns, files and writer runs.

pub mod aimed;
pub mod column_cases;
pub mod column_damage;
pub mod draft;
pub mod encode;
pub mod fetch_cases;
pub mod field_damage;
pub mod fields;
pub mod file_cases;
pub mod file_damage;
pub mod floats;
pub mod giant;
pub mod made_up;
pub mod pages;
pub mod plan;
pub mod queries;
pub mod rings;
pub mod run_cases;
pub mod run_pages;
pub mod shape_damage;
pub mod shapes;
pub mod step_cases;
pub mod tiny_cases;
pub mod values;
