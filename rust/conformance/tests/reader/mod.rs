//! The reader and the job list: response times, and jobs in the window.

pub mod differential;
pub mod jobs;
mod response_times;
