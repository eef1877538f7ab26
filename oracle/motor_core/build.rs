#[path = "../build/copy.rs"]
mod copy;

use copy::{Copied, Replaced};

fn unchanged(module: &'static str) -> Copied<'static> {
    Copied {
        module,
        replaced: &[],
        appended: "",
    }
}

fn main() {
    let feedback = Copied {
        module: "feedback",
        replaced: &[Replaced {
            text: "use std::time::{Duration, Instant};",
            by: "use script::Instant; use std::time::Duration;",
            count: 1,
        }],
        appended: "",
    };
    copy::copy(
        "motor_core/src",
        &[
            unchanged("bus"),
            unchanged("error"),
            feedback,
            unchanged("model"),
        ],
    );
}
