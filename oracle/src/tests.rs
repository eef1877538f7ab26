//! Scripts with the answers that the papers and the original's files lead one to expect.

use crate::oracle::Oracle;
use crate::random::Recipe;
use crate::{lines, parser, random};

/// Runs lines of the form `CALL => ANSWER`; lines without an arrow are passed over.
fn check(script: &str) {
    let mut oracle = Oracle::default();
    check_with(&mut oracle, script);
}

fn check_with(oracle: &mut Oracle, script: &str) {
    for (number, line) in script.lines().enumerate() {
        if let Some((call, expected)) = line.split_once("=>") {
            let mut answer = Vec::new();
            oracle.line(call.trim().as_bytes(), &mut answer);
            let answer = String::from_utf8(answer).expect("text");
            assert_eq!(answer.trim_end(), expected.trim(), "{number}: {call}");
        }
    }
}

#[test]
fn example_of_the_line_script() {
    // Each line a call, some spaces, its answer. The paper's frame has another id, and would be refused with 15.
    let example = "
    start-model 4310 1 0x11          started
    read-reg 1 10                    frame 2047 0100330A00000000
    frame 5 0x11 0x0100330A01000000 8 0      taken
    session                          session last 5 sequence 0 run 0 latest none replies 10 u32 1 5 acks
    get-u32 10 1000000               want clock
    clock 6                          want send 2047 0100330A00000000
    sent                             want clock
    clock 6                          want sleep 2000000
";
    let arrows: Vec<String> = example
        .lines()
        .filter_map(|line| line.trim().split_once("  "))
        .map(|(call, answer)| format!("{call} => {answer}"))
        .collect();
    assert_eq!(arrows.len(), 8);
    check(&arrows.join("\n"));
}

#[test]
fn bench_cases() {
    check(
        "mit 1 0x41480000 0x41F00000 0x41200000 0 0 0 0 0 => frame 1 7FFF7FF0000007FF
        mit 1 0x41480000 0x41F00000 0x41200000 0x41480000 0x41F00000 0x43FA0000 0x40A00000 0x41200000 => frame 1 FFFFFFFFFFFFFFFF
        decode 0x41480000 0x41F00000 0x41200000 0x1100000000001E28 => feedback 1 1 C1480000 C1F00000 C1200000 41F00000 42200000
        status-name 1 => status ENABLED
        sort 0x110F330A01000000 => reply
        sort 0x1110330A01000000 => feedback
        sort 0x110F332501000000 => feedback
        sort 0x110F550A01000000 => ack
        read-reg 1 10 => frame 2047 0100330A00000000
        force-pos 1 0 0x42C80000 0x3F800000 => frame 769 0000000010271027
        match 0x41480000 0x42340000 0x41200000 0 => models G6215 H6220
        match 0x41480000 0x42340000 0x41200000 0x7FC00000 => models
        suggest 0x41480000 0x41F00000 0x41200000 3 => models 4310 G6215 H6220
        suggest 0xC692A844 0x46A12838 0xC7276C48 16 => models H3510 3507 4310P G6215 H6220 4310 6006 JH11 4340_v20 8006 4340 4340P 8009 6248P 10010L 10010",
    );
}

#[test]
fn command_frames() {
    check(
        "write-reg 0x123 37 0x11223344 => frame 2047 2301552544332211
        read-reg 0x4FF 255 => frame 2047 FF0433FF00000000
        store-params 1 => frame 2047 0100AA0100000000
        feedback-request 0x0102 => frame 2047 0201CC0000000000
        disable 5 => frame 5 FFFFFFFFFFFFFFFD
        zero 5 => frame 5 FFFFFFFFFFFFFFFE
        clear 0x4FF => frame 1279 FFFFFFFFFFFFFFFB
        pos-vel 0x4FF 0x7F800001 0xFFC00123 => frame 1535 0100807F2301C0FF
        vel 0x4FF 0x7FA00000 => frame 1791 0000A07F00000000
        force-pos 0x4FF 0xFFFFFFFF 0x7FC00000 0xFF800000 => frame 2047 FFFFFFFF00000000
        vel 0x500 0 => refused 2
        mit 0x500 0 0x3F800000 0x3F800000 0 0 0 0 0 => refused 1
        mit 0x500 0x3A800000 0x47800000 0x3F800000 0 0 0 0 0 => refused 2
        mit 1 0x3A7FFFFF 0x3F800000 0x3F800000 0 0 0 0 0 => refused 1
        mit 1 0x3F800000 0x47800001 0x3F800000 0 0 0 0 0 => refused 1
        decode 0x3F800000 0x3F800000 0x7FC00000 0 => refused 1
        decode 0x3F808000 0x3F800000 0x3F800000 0x00FFFF0000000000 => feedback 0 0 3F808002 BF800000 BF800000 00000000 00000000
        match 0x47800001 0 0 0 => refused 11
        suggest 0 0xFF800000 0 1 => refused 11
        suggest 0x47800000 0xC7800000 0 0 => models",
    );
}

#[test]
fn what_a_motor_sends() {
    check(
        "make-feedback 1 1 0 0 0 30 40 => data 1100000000001E28
        make-feedback 2 12 0x3456 0x789 0xABD 0xEF 0x10 => data C23456789ABDEF10
        make-feedback 15 15 65535 4095 4095 255 255 => data FFFFFFFFFFFFFFFF
        make-feedback 16 0 0 0 0 0 0 => refused 14
        make-feedback 0 16 0x0F33 0x0A0 0 0 0 => refused 14
        make-feedback 0 0 65536 0 0 0 0 => refused 14
        make-feedback 0 0 0 4096 0 0 0 => refused 14
        make-feedback 0 0 0 0 4096 0 0 => refused 14
        make-feedback 0 0 0 0 0x80000000 0 0 => refused 14
        make-feedback 1 1 0x0F33 0x0A0 0 0 0 => refused 13
        make-feedback 1 1 0x0F55 0x0AF 4095 255 255 => refused 13
        make-feedback 1 1 0x0F33 0x250 0 0 0 => data 110F332500000000
        make-feedback 1 1 0x1033 0x0A0 0 0 0 => data 1110330A00000000
        make-feedback 1 1 0x0F34 0x0A0 0 0 0 => data 110F340A00000000
        make-reply 1 10 0x04030201 => data 0100330A01020304
        make-ack 1 10 0x04030201 => data 0100550A01020304
        make-ack 0x4FF 13 0 => data FF04550D00000000
        make-reply 0 0 0x7FC12345 => data 000033004523C17F
        make-reply 0x500 37 0 => refused 14
        make-reply 0x4FF 37 0 => refused 4
        make-ack 0xFFFF 82 0 => refused 14
        make-ack 0 82 0 => refused 4",
    );
}

#[test]
fn written_feedback_is_what_the_original_decodes() {
    use crate::motor_side::Feedback;
    use motor_vendor_damiao::motor::adapter;
    use motor_vendor_damiao::protocol::uint_to_float;
    let maxima = [12.5, 45.0, 9.5];
    let (mut made, mut turned_back) = (0, 0);
    let mut decoded = |feedback: Feedback| {
        let Ok(data) = feedback.made() else {
            turned_back += 1;
            return;
        };
        made += 1;
        let read = adapter::decode(maxima, data);
        let [p, v, t] = maxima;
        let expected = (
            (feedback.motor, feedback.status),
            uint_to_float(feedback.position, -p, p, 16),
            uint_to_float(feedback.velocity, -v, v, 12),
            uint_to_float(feedback.torque, -t, t, 12),
            (f32::from(feedback.mos), f32::from(feedback.rotor)),
        );
        let temperatures = (read.t_mos, read.t_rotor);
        assert_eq!(
            (
                (read.can_id, read.status_code),
                read.pos,
                read.vel,
                read.torq,
                temperatures
            ),
            expected
        );
    };
    let feedback = |nibbles: u8, position, velocity, torque| Feedback {
        motor: nibbles & 0xF,
        status: nibbles >> 4,
        position,
        velocity,
        torque,
        mos: nibbles,
        rotor: !nibbles,
    };
    for position in 0..=65_535 {
        decoded(feedback(
            position as u8,
            position,
            position & 0xFFF,
            position >> 4,
        ));
    }
    // every velocity behind a position that looks like a register's frame
    for velocity in 0..4_096 {
        decoded(feedback(velocity as u8, 0x0F33, velocity, 4_095 - velocity));
    }
    // 53 registers with 16 velocities each; and seven of the positions, as 0x0333, whose velocity is 0x333
    assert_eq!((made, turned_back), (65_536 + 4_096 - 855, 855));
}

#[test]
fn written_replies_and_acks_are_what_the_original_takes() {
    use motor_vendor_damiao::registers::{register_info, RegisterDataType};
    let mut oracle = Oracle::default();
    let mut told = |line: String| {
        let mut answer = Vec::new();
        oracle.line(line.as_bytes(), &mut answer);
        String::from_utf8(answer)
            .expect("text")
            .trim_end()
            .to_string()
    };
    for rid in 0..=u8::MAX {
        for bits in [0, 1, 0x0403_0201, 0x7FC1_2345, 0xFF80_0001, u32::MAX] {
            for (word, id) in [("reply", 0), ("reply", 0x4FF), ("ack", 1), ("ack", 0x4FF)] {
                assert_eq!(told(format!("start-model 4310 {id} 17")), "started");
                let made = told(format!("make-{word} {id} {rid} {bits}"));
                let Some(info) = register_info(rid) else {
                    assert_eq!(made, "refused 4");
                    continue;
                };
                let data = made.strip_prefix("data ").expect("bytes");
                assert_eq!(told(format!("frame 7 17 0x{data} 8 0")), "taken");
                let value = match info.data_type {
                    RegisterDataType::UInt32 => format!("u32 {bits}"),
                    RegisterDataType::Float => format!("f32 {bits:08X}"),
                };
                let held = if word == "reply" {
                    format!("replies {rid} {value} 7 acks")
                } else {
                    format!("replies acks {rid} {value} 7")
                };
                let session = "session last 7 sequence 0 run 0 latest none";
                assert_eq!(told("session".into()), format!("{session} {held}"));
            }
        }
    }
}

#[test]
fn refusals_in_their_order() {
    check(
        "session => no session
        get-u32 37 0 => no session
        clock x => bad line
        start-model 4340X 0x500 1 => refused 12
        start-model 4310 0x500 1 => refused 2
        start-limits 0x500 1 0 0 0 => refused 1
        session => no session
        start-model 4310 1 0x11 => started
        clock 1 => refused 9
        get-u32 37 60000000001 => refused 4
        get-f32 80 60000000001 => refused 7
        write-u32 66 0 => refused 4
        write-u32 11 0 => refused 5
        write-u32 0 0 => refused 6
        write-f32 10 0 => refused 6
        mode 257 60000000001 => refused 10
        mode 1 60000000001 => refused 7
        fresh-state 60000000001 => refused 7
        get-u32 10 60000000000 => want clock
        mode 0 0 => refused 8
        write-u32 66 0 => refused 8
        sent => refused 9
        clock 0x4000000000000001 => refused 3
        frame 7 0x11 0x0100000000000000 8 0 => taken
        clock 6 => refused 3
        frame 6 0 0 8 0 => refused 3
        frame 7 0 0 8 0 => refused 15
        clock 7 => want send 2047 0100330A00000000
        clock 0 => refused 9
        start-limits 1 1 0 0 0 => refused 1
        send-timeout => timeout
        session => session last 7 sequence 1 run 0 latest 1 7 1 17 0 DISABLED C1480000 C1F00000 C1200000 00000000 00000000 replies acks
        frame 0x4000000000000001 0 0 8 0 => refused 3
        frame 0x4000000000000000 0x11 0x0100000000000000 8 0 => taken",
    );
}

#[test]
fn frames_of_other_motors() {
    // Each test alone: extended, length, id, low four bits of a feedback, d0 and d1 of a reply and an ack.
    check(
        "start-model 4310 0x2A5 0x2B5 => started
        frame 5 0x2B5 0x1500000000000000 8 0 => taken
        frame 5 0x2B5 0xA502330A07000000 8 0 => taken
        frame 5 0x2B5 0xA502550A08000000 8 0 => taken
        frame 6 0x2B5 0x1500000000000000 8 1 => refused 15
        frame 6 0x2B5 0x1500000000000000 0 0 => refused 15
        frame 6 0x2B5 0x1500000000000000 7 0 => refused 15
        frame 6 0x2B5 0x1500000000000000 9 0 => refused 15
        frame 6 0x2A5 0x1500000000000000 8 0 => refused 15
        frame 6 0x7FF 0x1500000000000000 8 0 => refused 15
        frame 6 0x102B5 0x1500000000000000 8 0 => refused 15
        frame 6 0x2B5 0x1400000000000000 8 0 => refused 15
        frame 6 0x2B5 0x0502330A09000000 8 0 => refused 15
        frame 6 0x2B5 0xA402330A09000000 8 0 => refused 15
        frame 6 0x2B5 0xA501330A09000000 8 0 => refused 15
        frame 6 0x2B5 0xA503550A09000000 8 0 => refused 15
        frame 6 0x2B5 0xA500550A09000000 8 0 => refused 15
        frame 6 0x2B5 0xA50F550A09000000 8 0 => refused 15
        frame 4 0x2A5 0x1500000000000000 8 0 => refused 3
        frame 0x4000000000000001 0x2B5 0xA501330A09000000 8 0 => refused 3
        session => session last 5 sequence 1 run 0 latest 1 5 5 693 1 ENABLED C1480000 C1F00000 C1200000 00000000 00000000 replies 10 u32 7 5 acks 10 u32 8 5
        frame 5 0x2B5 0x2510330A09000000 8 0 => taken
        frame 5 0x2B5 0x250F332509000000 8 0 => taken
        accepts 0x7FF 0x0500000000000000 1 0 => accepts 1",
    );
}

#[test]
fn echoes() {
    // On 0x7FF our own write is an ack, and our own read a reply, if that is the feedback id.
    for (feedback, answer, held) in [
        (
            "0x7FF",
            "taken",
            "last 2 sequence 0 run 0 latest none replies 10 u32 0 1 acks 10 u32 3 2",
        ),
        (
            "0x7FE",
            "refused 15",
            "last 0 sequence 0 run 0 latest none replies acks",
        ),
        (
            "0x11",
            "refused 15",
            "last 0 sequence 0 run 0 latest none replies acks",
        ),
    ] {
        check(&format!(
            "read-reg 1 10 => frame 2047 0100330A00000000
            write-reg 1 10 3 => frame 2047 0100550A03000000
            start-model 4310 1 {feedback} => started
            frame 1 0x7FF 0x0100330A00000000 8 0 => {answer}
            frame 2 0x7FF 0x0100550A03000000 8 0 => {answer}
            session => session {held}"
        ));
    }
}

#[test]
fn first_bytes_of_a_motors_frames() {
    for motor in [0, 1, 0xF, 0x10, 0x11, 0xFF, 0x100, 0x101, 0x234, 0x4FF] {
        let mut oracle = Oracle::default();
        check_with(
            &mut oracle,
            &format!("start-model 4310 {motor} 0x11 => started"),
        );
        let mut taken = |d1: u32, marker: u32| {
            let is_taken = |d0: &u32| {
                let mut answer = Vec::new();
                let line = format!("frame 1 0x11 0x{d0:02X}{d1:02X}{marker:02X}0A01000000 8 0");
                oracle.line(line.as_bytes(), &mut answer);
                answer == b"taken\n"
            };
            (0..256).filter(is_taken).collect::<Vec<u32>>()
        };
        for d1 in 0..16 {
            let own: Vec<u32> = (d1 == motor / 256)
                .then_some(motor % 256)
                .into_iter()
                .collect();
            assert_eq!((taken(d1, 0x33), taken(d1, 0x55)), (own.clone(), own));
        }
        let same_low_bits: Vec<u32> = (0..16).map(|status| status * 16 + motor % 16).collect();
        assert_eq!(taken(16, 0x33), same_low_bits);
        assert_eq!(taken(0, 0x34), same_low_bits);
    }
}

#[test]
fn refused_frames_might_as_well_not_have_come() {
    let recipe = Recipe {
        families: random::families("sessions,runs,mode").expect("kinds"),
        without: Vec::new(),
    };
    let chunk = random::chunk(15, 60_000, &recipe);
    // Without the test, on the script without the frames that it refuses.
    let mut oracle = Oracle::default();
    let mut original = Oracle::of_any_frame();
    let mut refused = 0;
    lines::answer_lines(chunk.script.as_slice(), std::io::sink(), |line, _| {
        let (mut answer, mut untested) = (Vec::new(), Vec::new());
        oracle.line(line, &mut answer);
        if answer == b"refused 15\n" {
            refused += 1;
        } else {
            original.line(line, &mut untested);
            assert_eq!(answer, untested);
        }
    })
    .expect("no input or output fails");
    assert!(refused > 1_000, "{refused}");
}

#[test]
fn confirmed_write_keeps_the_bits_of_a_nan() {
    check(
        "start-model 4310 1 0x11 => started
        write-f32 0 0x7FC00001 => want send 2047 010055000100C07F
        sent => want clock
        clock 5 => want clock
        clock 50000005 => want sleep 20000000
        slept => want send 2047 010055000100C07F
        sent => want clock
        frame 50000005 0x11 0x010055000100C07F 8 0 => taken
        clock 50000006 => want clock
        clock 100000005 => want sleep 2000000
        frame 100000005 0x11 0x010055000200C07F 8 0 => taken
        slept => want sleep 20000000
        slept => want send 2047 010055000100C07F
        sent => want clock
        clock 100000005 => mismatch f32 7FC00002
        write-f32 0 0x7F800001 => want send 2047 010055000100807F
        sent => want clock
        frame 100000005 0x11 0x010055000100807F 8 0 => taken
        clock 100000005 => done
        write-u32 10 4 => want send 2047 0100550A04000000
        send-failed => send-failed
        session => session last 100000005 sequence 0 run 0 latest none replies acks 0 f32 7F800001 100000005",
    );
}

#[test]
fn reads_and_states() {
    check(
        "start-model 4310 1 0x11 => started
        frame 3 0x11 0x0100335011223344 8 0 => taken
        get-u32 80 0 => want clock
        clock 3 => want send 2047 0100335000000000
        sent => wrong-type
        get-f32 80 0 => want clock
        clock 3 => want send 2047 0100335000000000
        sent => done f32 44332211
        get-f32 80 0 => want clock
        clock 4 => want send 2047 0100335000000000
        sent => want clock
        frame 4 0x11 0x0100335011223344 8 0 => taken
        clock 4 => timeout
        fresh-state 1 => want clock
        clock 4 => want send 2047 0100CC0000000000
        sent => want clock
        clock 4 => want sleep 2000000
        slept => want clock
        clock 5 => no-state
        patch 0 1 2 => patched 0
        frame 9 0x11 0xF1FFFFFFFFFFFFFF 8 0 => taken
        patch 255 1 2 => patched 1
        fresh-state 1 => want clock
        clock 9 => want send 2047 0100CC0000000000
        sent => done state 1 17 255 UNKNOWN 41480000 41F00000 41200000 3F800000 40000000
        fresh-state 1 => want clock
        clock 9 => want send 2047 0100CC0000000000
        send-failed => send-failed
        store => want clock
        clock 10 => want send 2047 0100CC0000000000
        send-failed => want send 1 FFFFFFFFFFFFFFFD
        sent => want sleep 20000000
        slept => want send 2047 0100AA0100000000
        sent => want sleep 30000000
        slept => done
        frame 10 17 0x1100000000000000 8 0 => taken
        store => want clock
        clock 10 => want send 2047 0100CC0000000000
        patch 0 0 0 => patched 1
        sent => want send 2047 0100AA0100000000
        send-timeout => timeout",
    );
}

#[test]
fn mode_switch() {
    check(
        "start-model 4310 1 0x11 => started
        mode 2 400000000 => want clock
        clock 0 => want clock
        clock 0 => want clock
        clock 0 => want send 2047 0100330A00000000
        frame 0 0x11 0x0100330A01000000 8 0 => taken
        sent => want clock
        clock 0 => want clock
        clock 0 => want send 2047 0100335000000000
        frame 0 0x11 0x010033500000803F 8 0 => taken
        sent => want send 513 0000000000000000
        sent => want send 257 0000803F00000000
        send-failed => want send 769 0000803F00000000
        send-timeout => want send 1 8A3C7FF0000007FF
        sent => want send 2047 0100550A02000000
        sent => want clock
        frame 0 0x11 0x0100550A02000000 8 0 => taken
        clock 0 => want clock
        clock 0 => want sleep 20000000
        slept => want send 257 0000803F00000000
        sent => want clock
        clock 20000000 => want clock
        clock 20000000 => want send 2047 0100330A00000000
        sent => want clock
        clock 20000000 => want sleep 2000000
        frame 20000000 0x11 0x0100330A02000000 8 0 => taken
        slept => done
        mode 1 0 => want clock
        clock 20000000 => want clock
        clock 20000001 => timeout",
    );
}

#[test]
fn lent_calls() {
    check(
        "lent clock 5 => no session
        lent store => no session
        lent session => bad line
        lent clock x => bad line
        start-model 4310 1 0x11 => started
        lent slept => refused 9
        lent mode 0 0 => refused 10
        lent get-u32 10 1000000 => want clock
        lent store => refused 8
        lent frame 1 2 3 8 0 => bad line
        lent clock 5 => want send 2047 0100330A00000000
        lent patch 11 80 90 => patched 0
        frame-lent 5 0x11 0x0100330A03000000 8 0 => taken
        lent lent sent => bad line
        lent sent => done u32 3
        session => session last 5 sequence 0 run 0 latest none replies 10 u32 3 5 acks",
    );
}

#[test]
fn mode_switch_that_fails() {
    // The mismatch of the first read stands, although time runs out later.
    check(
        "start-model 4310 1 0x11 => started
        mode 3 0 => want clock
        clock 0 => want clock
        clock 0 => want clock
        clock 0 => want send 2047 0100330A00000000
        frame 0 0x11 0x0100330AFFFFFFFF 8 0 => taken
        sent => want send 513 0000000000000000
        sent => want send 257 0000000000000000
        sent => want send 769 0000000000000000
        sent => want send 1 7FFF7FF0000007FF
        sent => want send 2047 0100550A03000000
        frame 0 0x11 0x0100550A03000000 8 0 => taken
        sent => want clock
        clock 0 => want clock
        clock 1 => want send 513 0000000000000000
        sent => want clock
        clock 1 => mismatch u32 4294967295",
    );
    // A confirmed write that fails ends it with the ack's value.
    let mut oracle = Oracle::default();
    check_with(
        &mut oracle,
        "start-model 4310 1 0x11 => started
        mode 3 0 => want clock
        clock 0 => want clock
        clock 0 => want clock
        clock 0 => want send 2047 0100330A00000000
        send-timeout => want send 513 0000000000000000
        sent => want send 257 0000000000000000
        sent => want send 769 0000000000000000
        sent => want send 1 7FFF7FF0000007FF
        frame 0 0x11 0x0100550A04000000 8 0 => taken
        sent => want send 2047 0100550A03000000
        sent => want clock
        clock 0 => want sleep 20000000
        slept => want send 2047 0100550A03000000
        sent => want clock
        clock 0 => want sleep 20000000
        slept => want send 2047 0100550A03000000
        sent => want clock
        clock 0 => mismatch u32 4",
    );
    // A send of a mode read that fails otherwise ends it.
    check_with(
        &mut oracle,
        "mode 3 60000000000 => want clock
        clock 0 => want clock
        clock 0 => want clock
        clock 0 => want send 2047 0100330A00000000
        send-failed => send-failed",
    );
}

#[test]
fn hold_positions_keep_their_bits() {
    // At motor 0x4FF these bits make the force-position frame a read of register 10; a NaN's travel too.
    for (bits, held, mit) in [
        ("FF04330A", "FF04330A", "7FFF"),
        ("0100807F", "0100807F", "0000"),
        ("230180FF", "230180FF", "0000"),
    ] {
        check(&format!(
            "start-model 4310 0x4FF 0x11 => started
            mode 4 2000000 => want clock
            clock 0 => want clock
            clock 0 => want clock
            clock 0 => want send 2047 FF04330A00000000
            send-timeout => want clock
            clock 0 => want clock
            clock 0 => want send 2047 FF04335000000000
            frame 0 0x11 0xFF043350{bits} 8 0 => taken
            sent => want send 1791 0000000000000000
            sent => want send 1535 {held}00000000
            sent => want send 2047 {held}00000000
            sent => want send 1279 {mit}7FF0000007FF
            sent => want send 2047 FF04550A04000000
            sent => want clock
            frame 0 0x11 0xFF04550A04000000 8 0 => taken
            clock 0 => want clock
            clock 0 => want send 2047 {held}00000000
            send-timeout => timeout"
        ));
    }
}

#[test]
fn the_most_that_a_switch_wants() {
    let mut oracle = Oracle::default();
    let mut counts = Vec::new();
    // The last reading, and the sleeps since.
    let mut last = 0;
    let mut naps: Vec<u64> = Vec::new();
    for line in include_str!("../worst.script").lines() {
        let mut answer = Vec::new();
        oracle.line(line.as_bytes(), &mut answer);
        let answer = String::from_utf8(answer).expect("text");
        if line.starts_with("mode ") {
            counts.push([0; 5]);
        }
        let Some([sends, reads, writes, sleeps, answers]) = counts.last_mut() else {
            continue;
        };
        let answers_a_want = |word| line.split(' ').next() == Some(word);
        *sends += u32::from(answer.starts_with("want send"));
        *reads += u32::from(answer.starts_with("want send 2047 0100330A"));
        *writes += u32::from(answer.starts_with("want send 2047 0100550A"));
        *sleeps += u32::from(answer.starts_with("want sleep"));
        *answers += u32::from(["clock", "sent", "slept"].into_iter().any(answers_a_want));
        if let Some(reading) = line.strip_prefix("clock ") {
            let reading = reading.parse().expect("a reading");
            assert!(naps.iter().all(|nap| last + nap <= reading), "{line}");
            last = reading;
            naps.clear();
        }
        if let Some(nap) = answer.strip_prefix("want sleep ") {
            naps.push(nap.trim().parse().expect("a length"));
        }
    }
    let most = |answers| [21, 4, 9, 449, answers];
    assert_eq!(counts, [most(944), most(943), most(942)]);
}

#[test]
fn a_fresh_session_replaces_an_open_run() {
    let mut oracle = Oracle::default();
    for _ in 0..10_000 {
        check_with(
            &mut oracle,
            "start-model 4310 1 0x11 => started
            mode 1 400000000 => want clock
            clock 7 => want clock
            clock 7 => want clock
            clock 7 => want send 2047 0100330A00000000
            sent => want clock",
        );
    }
    check_with(
        &mut oracle,
        "start-model 4310 1 0x11 => started
        slept => refused 9
        session => session last 0 sequence 0 run 0 latest none replies acks",
    );
}

#[test]
fn random_scripts_are_answered_alike_when_run() {
    let kinds = [
        "frames-out",
        "frames-in",
        "motor-side",
        "models",
        "tables",
        "stateless",
        "sessions",
        "runs",
        "mode",
        "bad",
        "all",
    ];
    for (seed, kinds) in kinds.into_iter().enumerate() {
        let recipe = Recipe {
            families: random::families(kinds).expect("kinds"),
            without: Vec::new(),
        };
        let chunk = random::chunk(seed as u64, 20_000, &recipe);
        let again = random::chunk(seed as u64, 20_000, &recipe);
        assert!(chunk.script == again.script && chunk.answers == again.answers);
        let mut oracle = Oracle::default();
        let (mut answers, mut lines) = (Vec::new(), 0);
        lines::answer_lines(chunk.script.as_slice(), &mut answers, |line, out| {
            lines += 1;
            oracle.line(line, out)
        })
        .expect("no input or output fails");
        assert_eq!(lines, 20_000, "{kinds}");
        assert!(answers == chunk.answers, "{kinds}");
    }
    assert!(random::families("stateless,nothing").is_err());
}

#[test]
fn random_scripts_leave_out_calls() {
    let recipe = Recipe {
        families: random::families("sessions").expect("kinds"),
        without: vec!["frame-lent".to_string(), "accepts".to_string()],
    };
    let chunk = random::chunk(1, 20_000, &recipe);
    let mut oracle = Oracle::default();
    let (mut answers, mut lines, mut left) = (Vec::new(), 0, 0);
    lines::answer_lines(chunk.script.as_slice(), &mut answers, |line, out| {
        lines += 1;
        if oracle.session().is_some()
            && (line.starts_with(b"frame-lent ") || line.starts_with(b"accepts "))
        {
            left += 1;
        }
        oracle.line(line, out)
    })
    .expect("no input or output fails");
    assert_eq!((lines, left), (chunk.lines, 0));
    assert!(10_000 < lines && lines < 19_000);
    assert!(answers == chunk.answers);
}

#[test]
fn the_word_lent_changes_no_answer() {
    for kinds in ["sessions", "runs", "mode"] {
        let recipe = Recipe {
            families: random::families(kinds).expect("kinds"),
            without: Vec::new(),
        };
        let chunk = random::chunk(1, 20_000, &recipe);
        let mut oracle = Oracle::default();
        let (mut answers, mut plain, mut lent) = (Vec::new(), 0, 0);
        lines::answer_lines(chunk.script.as_slice(), &mut answers, |line, out| {
            let call = line.strip_prefix(b"lent ").unwrap_or(line);
            lent += u64::from(call != line);
            plain += u64::from(call == line && parser::may_be_lent(line));
            oracle.line(call, out)
        })
        .expect("no input or output fails");
        assert!(answers == chunk.answers, "{kinds}");
        assert!(
            (plain * 4 / 5..plain * 5 / 4).contains(&lent),
            "{kinds}: {lent}, {plain}"
        );
    }
}

#[test]
fn bench_cases_of_the_model_list() {
    use motor_vendor_damiao::motor::{display_models, model_limits, suggest_models_by_limits};
    let printed = include_str!("../../crates/cases/stdout");
    let limits = |name: &str| match model_limits(name) {
        Some((p, v, t)) => format!(
            "limits of {name} {:08x} {:08x} {:08x}",
            p.to_bits(),
            v.to_bits(),
            t.to_bits()
        ),
        None => format!("limits of {name} refused 12"),
    };
    let far = [0xC692A844, 0x46A12838, 0xC7276C48].map(f32::from_bits);
    for line in [
        format!(
            "nearest three to 12.5, 30, 10: {}",
            suggest_models_by_limits(12.5, 30.0, 10.0, 3).join(" ")
        ),
        format!(
            "nearest ten to C692A844, 46A12838, C7276C48: {}",
            suggest_models_by_limits(far[0], far[1], far[2], 10).join(" ")
        ),
        format!(
            "nearest to 12.5, 20, 28, as they are shown: {}",
            display_models(&suggest_models_by_limits(12.5, 20.0, 28.0, 16)).join(" ")
        ),
        format!(
            "4340X 4340_v20 4340X are shown as: {}",
            display_models(&["4340X", "4340_v20", "4340X"]).join(" ")
        ),
        limits("6248P"),
        limits("6248"),
    ] {
        assert!(printed.lines().any(|printed| printed == line), "{line}");
    }
}
