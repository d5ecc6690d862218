//! The linked library and this crate have one version, or no peer is made.
use lcmux::{library_version, Config, Peer, PeerFault, CHANNELS};

fn fault(config: &Config) -> Option<PeerFault> {
    Peer::new(config).err()
}

#[test]
fn a_library_of_this_version_makes_peers() {
    assert_eq!(fault(&Config::new([8; CHANNELS], 4)), None);
}

/// For an archive that returns the version 1.2.3, such as `scripts/bindings` makes one.
#[test]
#[ignore]
fn a_library_of_another_version_makes_none() {
    let found = 0x010203;
    assert_eq!(library_version(), found);
    for config in [Config::new([8; CHANNELS], 4), Config::new([0; CHANNELS], 0)] {
        let fault = fault(&config).unwrap();
        assert_eq!(fault, PeerFault::WrongLibrary { found });
        let said = fault.to_string();
        assert!(
            said.starts_with("the linked library must have version ")
                && said.ends_with(", got 1.2.3")
        );
    }
}
