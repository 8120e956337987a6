//! Stands in for the crate `base64`, which ion-rust's text formatter uses for blobs.
//!
//! Speed: no call that is compared or timed reaches it, so it only has the names.

pub struct Config;

pub const STANDARD: Config = Config;

pub fn encode_config_slice(_input: &[u8], _config: Config, _output: &mut [u8]) -> usize {
    unimplemented!("blobs are not compared")
}
