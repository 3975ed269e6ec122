//! The keyboard's bytes: the table of document 02's readings, bytes cut in any
//! way, and what each sort of byte leaves.

use independent::keyboard::{Event, Keyboard};

/// The keyboard after these bytes, channel 0 being chosen.
fn after(bytes: &[u8]) -> Keyboard {
    after_on(0, bytes)
}

fn after_on(channel: u32, bytes: &[u8]) -> Keyboard {
    let mut keyboard = Keyboard::FRESH;
    for &byte in bytes {
        keyboard.byte(byte, channel);
        assert!(keyboard.is_good(), "{bytes:?}");
    }
    keyboard
}

fn key(bytes: &[u8]) -> Option<u8> {
    after(bytes).key
}

#[test]
fn the_table_of_the_readings() {
    let table: &[(&[u8], Option<u8>)] = &[
        (&[144, 60, 100], Some(60)),
        // Running status; the latest note on.
        (&[144, 60, 100, 62, 90], Some(62)),
        // Released, though 60 is down.
        (&[144, 60, 100, 62, 90, 62, 0], None),
        // An older key's release changes nothing.
        (&[144, 60, 100, 62, 90, 60, 0], Some(62)),
        (&[144, 60, 100, 128, 60, 64], None),
        // A real-time byte inside.
        (&[144, 60, 248, 100], Some(60)),
        // 240 to 247 end a half message and the running status.
        (&[144, 60, 240, 1, 2, 247, 100], None),
        // Another channel's message has the running status.
        (&[144, 60, 100, 145, 62, 100, 64, 90], Some(60)),
        // Controllers, programs, pressure and bend change nothing.
        (&[144, 60, 100, 176, 123, 0], Some(60)),
        // A program change has one data byte: these are three of them.
        (&[144, 60, 100, 192, 5, 62, 0], Some(60)),
        // Data without a running status is passed over.
        (&[144, 60, 100, 246, 60, 0], Some(60)),
    ];
    for &(bytes, held) in table {
        assert_eq!(key(bytes), held, "{bytes:?}");
    }
    // A message may be cut anywhere: 144 60, then 100 in a later call.
    let mut keyboard = after(&[144, 60]);
    assert_eq!((keyboard.key, keyboard.half), (None, Some(60)));
    keyboard.byte(100, 0);
    assert_eq!(keyboard.key, Some(60));
}

#[test]
fn real_time_bytes_change_nothing() {
    let bytes = [144, 60, 100, 62, 90, 60, 0, 176, 7, 1, 62];
    for real_time in 248..=255 {
        for place in 0..=bytes.len() {
            let mut more = bytes.to_vec();
            more.insert(place, real_time);
            assert_eq!(after(&more), after(&bytes), "{more:?}");
        }
    }
}

#[test]
fn system_bytes_end_the_running_status() {
    for system in 240..=247 {
        let ended = Keyboard {
            key: Some(60),
            ..Keyboard::FRESH
        };
        assert_eq!(after(&[144, 60, 100, 62, system]), ended);
        assert_eq!(after(&[144, 60, 100, system, 60, 0, 62, 90]), ended);
        assert_eq!(key(&[144, 60, 100, system, 144, 60, 0]), None);
    }
    // An exclusive ends at any status byte below 248.
    assert_eq!(key(&[240, 60, 100, 144, 60, 100]), Some(60));
    assert_eq!(key(&[240, 60, 248, 100, 60, 255, 100]), None);
}

/// 128 to 239: notes off and on, and five sorts that are not about keys.
#[test]
fn statuses_of_the_chosen_channel_and_of_others() {
    for status in 128..=239u8 {
        for channel in 0..=15 {
            let before = [144 + channel as u8, 60, 100];
            let bytes = [&before[..], &[status, 60, 0]].concat();
            let released = [8, 9].contains(&(status / 16)) && u32::from(status % 16) == channel;
            let held = after_on(channel, &bytes).key;
            assert_eq!(held.is_none(), released, "{status} on {channel}");
            let bytes = [&before[..], &[status, 62, 1]].concat();
            let held = after_on(channel, &bytes).key;
            let struck = status == before[0];
            assert_eq!(held == Some(62), struck, "{status} on {channel}");
        }
    }
}

#[test]
fn messages_of_one_and_of_two_data_bytes() {
    for status in 128..=239 {
        let mut keyboard = after(&[status]);
        let single = (192..=223).contains(&status);
        let first = keyboard.byte(5, 15);
        assert_eq!(first == Event::Single, single, "{status}");
        assert_eq!(first == Event::First, !single, "{status}");
        assert_eq!(keyboard.half, (!single).then_some(5));
        // The next status ends a half message.
        keyboard.byte(144, 15);
        assert_eq!((keyboard.status, keyboard.half), (Some(144), None));
    }
}

#[test]
fn keys_and_velocities_at_their_ends() {
    assert_eq!(key(&[144, 0, 1]), Some(0));
    assert_eq!(key(&[144, 127, 127]), Some(127));
    assert_eq!(key(&[144, 0, 1, 0, 0]), None);
    assert_eq!(key(&[144, 0, 1, 128, 0, 127]), None);
    assert_eq!(key(&[144, 60, 0]), None);
    // Struck again while it is held, and released once.
    assert_eq!(key(&[144, 60, 1, 60, 2, 60, 0]), None);
    assert_eq!(key(&[144, 60, 1, 60, 0, 60, 2]), Some(60));
}
