//! The structs of the one desk as those of the other, field by field.

use hinurapay::flat as proved;
use ordinary::flat as plain;

/// What has a twin in the other desk.
pub trait Twin {
    /// The twin's kind.
    type Other;
    /// The twin, equal in every field.
    fn twin(self) -> Self::Other;
}

macro_rules! its_own_twin {
    ($($kind:ty),*) => {$(
        impl Twin for $kind {
            type Other = $kind;
            fn twin(self) -> $kind {
                self
            }
        }
    )*};
}

its_own_twin!(u8, u16, u32, u64, f64, [u8; 6], [u8; 10]);

impl<'a, T: ?Sized> Twin for &'a T {
    type Other = &'a T;
    fn twin(self) -> &'a T {
        self
    }
}

impl<'a> Twin for &'a mut [u8] {
    type Other = &'a mut [u8];
    fn twin(self) -> &'a mut [u8] {
        self
    }
}

macro_rules! twins {
    ($($name:ident: $($field:ident)*;)*) => {$(
        impl Twin for proved::$name {
            type Other = plain::$name;
            fn twin(self) -> plain::$name {
                plain::$name { $($field: self.$field.twin(),)* }
            }
        }

        impl Twin for plain::$name {
            type Other = proved::$name;
            fn twin(self) -> proved::$name {
                proved::$name { $($field: self.$field.twin(),)* }
            }
        }
    )*};
}

twins! {
    hp_packet: r#type reason count user password name session number start length next extra;
    hp_read: refusal packet;
    hp_wrote: refusal bytes;
    hp_block: refusal start length next;
    hp_pieces: kept dropping next;
    hp_piece: refusal place what why number bytes packet pieces;
    hp_tcp: r#type letter count session number top start length;
    hp_tcp_reading: refusal packet;
    hp_record: style ended name session next top asked held;
    hp_opened: refusal record;
    hp_taken: refusal bytes messages record;
    hp_standing: refusal complete missing first last;
    hp_range: refusal first last;
    hp_sheet: mean spread timed;
    hp_patience: rule first second;
    hp_timed: refusal sheet;
    hp_wait: refusal waits milliseconds;
    hp_asked: refusal what first count record;
    hp_yes: refusal yes;
    hp_log: count used ended;
    hp_logged: refusal log;
}
