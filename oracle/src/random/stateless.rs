//! Random lines that touch no session.

use super::rng::Rng;
use super::text::Text;
use super::values;

/// One command frame.
pub fn frames_out(rng: &mut Rng) -> Vec<u8> {
    let motor = values::motor_id(rng);
    let text = match rng.below(16) {
        0..=6 => return mit(rng, motor),
        7 => Text::new("pos-vel")
            .number(rng, motor)
            .float_drawn(rng)
            .float_drawn(rng),
        8 => Text::new("vel").number(rng, motor).float_drawn(rng),
        9..=11 => {
            let limit = values::scaled(rng, 100.0, 10_000);
            let ratio = values::scaled(rng, 1.0, 10_000);
            Text::new("force-pos")
                .number(rng, motor)
                .float_drawn(rng)
                .floats(rng, &[limit, ratio])
        }
        12 => {
            let rid = values::rid(rng);
            Text::new("read-reg").number(rng, motor).number(rng, rid)
        }
        13 => {
            let rid = values::rid(rng);
            Text::new("write-reg")
                .number(rng, motor)
                .number(rng, rid)
                .float_drawn(rng)
        }
        14 => {
            let word = rng.pick(&["store-params", "feedback-request"]);
            Text::new(word).number(rng, motor)
        }
        _ => {
            let word = rng.pick(&["disable", "zero", "clear"]);
            Text::new(word).number(rng, motor)
        }
    };
    text.bytes
}

impl Text {
    /// Any float that travels unchanged.
    fn float_drawn(self, rng: &mut Rng) -> Self {
        let bits = values::any_float(rng);
        self.float(rng, bits)
    }
}

fn mit(rng: &mut Rng, motor: u16) -> Vec<u8> {
    let limits = values::limits(rng);
    let [p, v, t] = limits.map(f32::from_bits);
    let all_at_one = rng.chance(5).then(|| values::special(rng));
    let setpoint = [
        values::setpoint(rng, -p, p, 65_535),
        values::setpoint(rng, -v, v, 4_095),
        values::setpoint(rng, 0.0, 500.0, 4_095),
        values::setpoint(rng, 0.0, 5.0, 4_095),
        values::setpoint(rng, -t, t, 4_095),
    ]
    .map(|drawn| all_at_one.unwrap_or(drawn));
    Text::new("mit")
        .number(rng, motor)
        .floats(rng, &limits)
        .floats(rng, &setpoint)
        .bytes
}

/// Decoding and sorting.
pub fn frames_in(rng: &mut Rng) -> Vec<u8> {
    let data = values::data(rng);
    if rng.chance(50) {
        return Text::new("sort").data(rng, data).bytes;
    }
    let data = if rng.chance(70) {
        rng.next().to_be_bytes()
    } else {
        data
    };
    let limits = values::limits(rng);
    Text::new("decode")
        .floats(rng, &limits)
        .data(rng, data)
        .bytes
}

/// What a motor sends.
pub fn motor_side(rng: &mut Rng) -> Vec<u8> {
    if rng.chance(40) {
        let word = rng.pick(&["make-reply", "make-ack"]);
        let (id, rid) = (values::motor_id(rng), values::rid(rng));
        let text = Text::new(word).number(rng, id).number(rng, rid);
        return text.float_drawn(rng).bytes;
    }
    let [motor, status, position, velocity, torque] = values::feedback_fields(rng);
    let text = [motor, status, position, velocity, torque]
        .into_iter()
        .fold(Text::new("make-feedback"), |text, field| {
            text.number(rng, field)
        });
    let [mos, rotor] = [rng.next() as u8, rng.next() as u8];
    text.number(rng, mos).number(rng, rotor).bytes
}

pub fn models(rng: &mut Rng) -> Vec<u8> {
    let queries = values::queries(rng);
    if rng.chance(50) {
        let tolerance = values::tolerance(rng, queries);
        Text::new("match")
            .floats(rng, &queries)
            .float(rng, tolerance)
            .bytes
    } else {
        let count = match rng.below(8) {
            0 => rng.next(),
            1 => u64::MAX,
            2 => rng.pick(&[0, 1, 16, 17, 256, 1 << 32, (1 << 32) + 3]),
            3..=5 => 16,
            _ => rng.below(19),
        };
        Text::new("suggest")
            .floats(rng, &queries)
            .number(rng, count)
            .bytes
    }
}

pub fn tables(rng: &mut Rng) -> Vec<u8> {
    let word = rng.pick(&["status-name", "register"]);
    let number = match rng.below(3) {
        0 => rng.next() as u8,
        1 => rng.below(20) as u8,
        _ => values::rid(rng),
    };
    Text::new(word).number(rng, number).bytes
}
