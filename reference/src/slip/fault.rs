//! A deliberate fault, and how a section lists its own.

/// By a number of its own: that of its section before its place there.
#[derive(Clone, Copy, PartialEq, Eq, Debug)]
pub struct Fault(pub u16);

/// A fault with its name and what it does.
pub struct Listed {
    pub fault: Fault,
    pub name: &'static str,
    pub what: &'static str,
}

impl Fault {
    pub fn section(self) -> u16 {
        self.0 >> 9
    }
}

/// The faults of a section, of up to 512; each is a constant of `Fault`, so that a `match` can ask for it.
macro_rules! faults {
    ($section:literal; $($name:ident: $what:literal,)*) => {
        enum Place { $($name,)* }

        #[allow(non_upper_case_globals)]
        impl Fault {
            $(pub const $name: Fault = Fault($section << 9 | Place::$name as u16);)*
        }

        pub const FAULTS: &[Listed] = &[$(Listed { fault: Fault::$name, name: stringify!($name), what: $what },)*];
    };
}
pub(super) use faults;
