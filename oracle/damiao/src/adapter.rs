//! A child of the original's motor.rs: what the script needs of its private items, and no more.

use super::*;
use crate::protocol::SensorFeedback;

/// The original's limits, made from the three maxima as for a model with these three.
fn limits_of(maxima: [f32; 3]) -> PvTLimits {
    let [pmax, vmax, tmax] = maxima;
    PvTLimits::from_spec(&MotorModelSpec {
        vendor: "damiao",
        model: "",
        pmax,
        vmax,
        tmax,
    })
}

/// A motor as `DamiaoMotor::new` makes it, with limits of its own.
pub fn motor_with_limits(
    motor_id: u16,
    feedback_id: u16,
    maxima: [f32; 3],
    bus: Arc<dyn CanBus>,
) -> DamiaoMotor {
    let model = DAMIAO_MODELS[0].model;
    let mut motor = DamiaoMotor::new(motor_id, feedback_id, model, bus).expect("a model's name");
    motor.limits = limits_of(maxima);
    motor
}

/// The names and limits of all models, in table order.
pub fn models() -> impl Iterator<Item = (&'static str, [f32; 3])> {
    DAMIAO_MODELS
        .iter()
        .map(|spec| (spec.model, [spec.pmax, spec.vmax, spec.tmax]))
}

pub fn decode(maxima: [f32; 3], data: [u8; 8]) -> SensorFeedback {
    let limits = limits_of(maxima);
    decode_sensor_feedback(
        data,
        Limits {
            p_min: limits.p_min,
            p_max: limits.p_max,
            v_min: limits.v_min,
            v_max: limits.v_max,
            t_min: limits.t_min,
            t_max: limits.t_max,
        },
    )
}

#[derive(Debug, Clone, Copy, PartialEq, Eq)]
pub enum FrameClass {
    Reply,
    Ack,
    Feedback,
}

pub fn sort(data: &[u8; 8]) -> FrameClass {
    match register_frame_kind(data) {
        Some(RegisterFrameKind::Reply) => FrameClass::Reply,
        Some(RegisterFrameKind::WriteAck) => FrameClass::Ack,
        None => FrameClass::Feedback,
    }
}

/// A register that is held in a cache, with its value and stamp.
pub type Entry = (u8, RegisterValue, Instant);

impl DamiaoMotor {
    /// The replies held, rising by register.
    pub fn replies(&self) -> Vec<Entry> {
        let cache = self.register_cache.lock().expect("register cache");
        entries(&cache.values, &cache.reply_time)
    }

    /// The acks held, rising by register.
    pub fn acks(&self) -> Vec<Entry> {
        let cache = self.register_cache.lock().expect("register cache");
        entries(&cache.write_ack_values, &cache.write_ack_time)
    }

    /// The ack that the look of a confirmed write finds.
    pub fn ack(&self, rid: u8) -> Option<RegisterValue> {
        let cache = self.register_cache.lock().expect("register cache");
        cache.write_ack_values.get(&rid).copied()
    }

    /// The sequence number of the feedback.
    pub fn sequence(&self) -> u64 {
        self.state.sequence().expect("feedback cache")
    }

    /// `patch_latest` with the three bytes of a patch.
    pub fn patch(&self, status: u8, mos: u8, rotor: u8) -> bool {
        self.state
            .patch_latest(|state| {
                state.status_code = status;
                state.status_name = status_name(status);
                state.t_mos = mos as f32;
                state.t_rotor = rotor as f32;
            })
            .expect("feedback cache")
    }

    /// One write frame, with no wait for its ack.
    pub fn send_register_write(&self, rid: u8, bits: u32) -> Result<()> {
        self.write_register_u32_once(rid, bits)
    }
}

fn entries(values: &HashMap<u8, RegisterValue>, times: &HashMap<u8, Instant>) -> Vec<Entry> {
    let mut held: Vec<Entry> = values
        .iter()
        .map(|(rid, value)| (*rid, *value, times[rid]))
        .collect();
    held.sort_by_key(|entry| entry.0);
    held
}

#[cfg(test)]
mod tests {
    use super::*;

    #[test]
    fn caps_of_the_mode_reads() {
        let mode_cap = |total| {
            let hard_cap = Duration::from_millis(ENSURE_MODE_REGISTER_READ_TIMEOUT_MS);
            budget_cap(Duration::from_millis(total), hard_cap, 4)
        };
        assert_eq!(mode_cap(400), Duration::from_millis(100));
        assert_eq!(mode_cap(0), Duration::from_millis(2));
    }
}
