//! The program's commands: their words, and what each does.
mod advise;
mod beside;
mod curve;
mod make;
mod read;
mod run;

pub use advise::Advise;
pub use beside::Beside;
pub use curve::Curve;
pub use make::Make;
pub use read::Read;
pub use run::Run;

use crate::requests::Means;
use kilambosetry::Options;
use std::error::Error;

/// What a command comes to.
pub type Ended = Result<(), Box<dyn Error>>;

/// Options of these means, within their limits.
fn options_of(means: Option<Means>) -> Options {
    let default = Options::default();
    let means = means.unwrap_or(Means { key: default.mean_key, value: default.mean_value });
    Options { mean_key: means.key.clamp(1, 255), mean_value: means.value.clamp(1, 1 << 20), ..default }
}
