//! Stand-ins for what `fsm.rs` leans on and was not given.

/// Stands for the half-bit store's file: only what `fsm` uses of it, with document 01's two numbers.
#[allow(dead_code)]
pub mod halfbits {
    pub struct HalfBitBuffer {
        pub data: [u8; Self::DATA_LEN],
        pub length: u8,
    }

    impl HalfBitBuffer {
        pub const DATA_LEN: usize = 7;
        pub const MAX_DATA_HALF_BITS: u8 = 54;
    }
}

/// Stands for the platform crate.
pub mod platform {
    pub mod hal {
        #[allow(dead_code)]
        pub trait BitbangHal {
            fn bus_is_high(&mut self) -> bool;
            fn bus_set_high(&mut self);
            fn bus_set_low(&mut self);
        }
    }
}
