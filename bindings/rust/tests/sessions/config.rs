//! Configurations.
use crate::*;
use lcmux::Channel::{Data, Overlap};
use lcmux::{PleadPolicy, Timeouts};
use std::time::Duration;

#[test]
fn the_default_has_rings_of_64_kib_and_64_slots() {
    let config = Config::default();
    assert_eq!((config.capacities, config.slots), ([65_536; CHANNELS], 64));
    assert_eq!(config.version, Version::One);
    assert_eq!(config.issue, [IssuePolicy::AtOnce; CHANNELS]);
    assert_eq!(config.plead, [PleadPolicy::AtOnce; CHANNELS]);
    assert_eq!(config.longest, [None; CHANNELS]);
    assert_eq!(config.timeouts, Timeouts::default());
    assert_eq!(Config::new([65_536; CHANNELS], 64), config);
    assert!(Mux::new(config).is_ok());
}

/// A configuration with one change to the default.
fn changed(change: impl FnOnce(&mut Config)) -> Config {
    let mut config = Config::default();
    change(&mut config);
    config
}

#[test]
fn each_method_sets_its_option_alone() {
    let config = Config::default;
    let low = IssuePolicy::LowWater(9);
    let time = Duration::from_secs(9);
    let pairs = [
        (
            config().version(Version::Two),
            changed(|it| it.version = Version::Two),
        ),
        (config().rings(9), changed(|it| it.capacities = [9; 7])),
        (config().ring(Data, 9), changed(|it| it.capacities[1] = 9)),
        (config().slots(99), changed(|it| it.slots = 99)),
        (
            config().issue(Overlap, low),
            changed(|it| it.issue[2] = low),
        ),
        (
            config().plead(Overlap, PleadPolicy::ByCaller),
            changed(|it| it.plead[2] = PleadPolicy::ByCaller),
        ),
        (
            config().longest(Overlap, 9),
            changed(|it| it.longest[2] = Some(9)),
        ),
        (
            config().idle(time),
            changed(|it| it.timeouts.idle = Some(time)),
        ),
        (
            config().keep_alive(time),
            changed(|it| it.timeouts.keep_alive = Some(time)),
        ),
        (
            config().grace(time),
            changed(|it| it.timeouts.grace = Some(time)),
        ),
    ];
    for (set, changed) in pairs {
        assert_eq!(set, changed);
        assert_ne!(set, config());
    }
}

/// A keep-alive without a pause would leave no time for anything else.
#[test]
fn a_driver_has_the_timeouts_of_its_session() {
    let time = Duration::from_secs(9);
    let config = narrow().idle(time).keep_alive(Duration::ZERO);
    let (_mux, driver) = Mux::new(config).unwrap();
    let mut timeouts = Timeouts::default();
    timeouts.idle = Some(time);
    timeouts.keep_alive = Some(Duration::from_millis(1));
    assert_eq!(driver.timeouts(), timeouts);
}

#[test]
fn the_statistics_of_all_channels_are_by_the_channel() {
    let mut hand = hand::Hand::started(narrow());
    hand.feed(&room_on_all());
    for (count, channel) in ALL.into_iter().enumerate() {
        let sender = hand.mux.take_sender(channel).unwrap();
        for _ in 0..count {
            sender.try_send(b"x").unwrap();
            hand.written();
        }
    }
    let stats = hand.mux.stats();
    assert_eq!(stats.map(|it| it.messages_sent), [0, 1, 2, 3, 4, 5, 6]);
    assert_eq!(stats[Overlap].bytes_sent, 2);
}
