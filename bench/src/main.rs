//! The rows of the program `speed`, with the Rust original: the same inputs from the same seed, the
//! same checksums.

mod checksum;
mod inputs;
mod models;
mod protocol;
mod report;
mod running;
mod taking;

use inputs::{Frame, Input, Random};
use report::Row;

/// Inputs of five floats, inputs of a frame's eight bytes, and how many frames are taken and runs made.
const NUMBERS: usize = 65_536;
const FRAMES: usize = 262_144;
const TAKEN: usize = 50_000;

fn numbers(r: &mut Random, name: &str, input: Input, work: fn(&[[f32; 5]]) -> u64) {
    Row { name, work }.timed(&inputs::numbers(r, input, NUMBERS));
}

fn frames(r: &mut Random, name: &str, make: fn(&mut Random) -> Frame, work: fn(&[Frame]) -> u64) {
    Row { name, work }.timed(&inputs::frames(r, make, FRAMES));
}

fn taken(r: &mut Random, name: &str, make: fn(&mut Random) -> Frame, work: fn(&[Frame]) -> u64) {
    let frames = inputs::frames(r, make, TAKEN);
    let of_motor_1: Vec<Frame> = frames.into_iter().map(inputs::of_motor_1).collect();
    Row { name, work }.timed(&of_motor_1);
}

#[rustfmt::skip] // a line for each row
fn main() {
    let seed = std::env::args().nth(1).map_or(Ok(0), |word| word.parse());
    let r = &mut Random::new(seed.expect("a seed"));

    let within = Input::Setpoints { beyond: 0.0 };
    let beyond = Input::Setpoints { beyond: 0.25 };
    numbers(r, "encode MIT, within the limits", within, protocol::encode);
    numbers(r, "encode MIT, a third beyond", beyond, protocol::encode);
    frames(r, "decode feedback", inputs::feedback, protocol::decode);
    frames(r, "sort replies", inputs::reply, protocol::sort);
    frames(r, "sort acks", inputs::ack, protocol::sort);
    frames(r, "sort feedback", inputs::feedback, protocol::sort);
    frames(r, "sort feedback, d1 up to 0F", inputs::low_feedback, protocol::sort);
    frames(r, "sort unknown registers", inputs::unknown_register, protocol::sort);
    frames(r, "sort, a third of each class", inputs::mixed, protocol::sort);
    let near = |tolerance| Input::Queries { tolerance };
    numbers(r, "match, tolerance 1", near(1.0), models::matching);
    numbers(r, "match, tolerance 20", near(20.0), models::matching);
    numbers(r, "suggest three", near(0.0), models::suggest);
    for how in ["lent", "by value"] {
        let name = |what| format!("take{what}, {how}");
        taken(r, &name(" feedback frames"), inputs::feedback, taking::take);
        taken(r, &name(" replies"), inputs::reply, taking::take);
        taken(r, &name(", a third of each class"), inputs::mixed, taking::take);
    }
    for how in ["lent", "by value"] {
        let name = |what| format!("a {what}, {how}");
        taken(r, &name("register read"), inputs::feedback, running::reads);
        taken(r, &name("confirmed write"), inputs::feedback, running::writes);
        taken(r, &name("mode switch"), inputs::feedback, running::switches);
    }
}
