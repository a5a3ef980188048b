//! Stands in for the original's escape sequence parser: it has the types that `input` names, and
//! finds no mouse report in any bytes.

pub enum Action {
    CSI(CSI),
}

pub enum CSI {
    Mouse(csi::MouseReport),
}

pub mod csi {
    use crate::input::MouseButtons;
    use wezterm_input_types::Modifiers;

    pub use wezterm_input_types::KittyKeyboardFlags;

    pub enum MouseReport {
        SGR1006 {
            x: u16,
            y: u16,
            button: MouseButtons,
            modifiers: Modifiers,
        },
        SGR1016 {
            x_pixels: u16,
            y_pixels: u16,
            button: MouseButtons,
            modifiers: Modifiers,
        },
    }
}

pub mod parser {
    pub struct Parser;

    impl Parser {
        #[allow(clippy::new_without_default)]
        pub fn new() -> Self {
            Parser
        }

        pub fn parse_first(&mut self, _bytes: &[u8]) -> Option<(super::Action, usize)> {
            None
        }
    }
}
