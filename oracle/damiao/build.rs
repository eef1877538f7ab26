#[path = "../build/copy.rs"]
mod copy;

use copy::{Copied, Replaced};

fn main() {
    let manifest = std::env::var("CARGO_MANIFEST_DIR").expect("CARGO_MANIFEST_DIR");
    let adapter = format!(
        "#[path = {:?}] pub mod adapter;\n",
        manifest + "/src/adapter.rs"
    );
    let unchanged = |module| Copied {
        module,
        replaced: &[],
        appended: "",
    };
    let motor = Copied {
        module: "motor",
        replaced: &[
            Replaced {
                text: "use std::time::{Duration, Instant};",
                by: "use script::Instant; use std::time::Duration;",
                count: 1,
            },
            Replaced {
                text: "std::thread::sleep(",
                by: "script::sleep(",
                count: 9,
            },
        ],
        appended: &adapter,
    };
    copy::copy(
        "motor_vendors/damiao/src",
        &[unchanged("protocol"), unchanged("registers"), motor],
    );
}
