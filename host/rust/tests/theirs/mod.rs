//! What the independent program has, as the calls take it.

use daxfolin::Settings;

pub fn settings(of: &independent::settings::Settings) -> Settings {
    Settings {
        scale: of.scale,
        eps: of.eps,
        decay: of.decay,
        floor: of.floor,
        mode: of.mode,
        channel: of.channel,
    }
}
