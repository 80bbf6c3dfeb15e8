//! The Rust as it was published, read where it lies. What it leans on and was not given is in `shims`.
//!
//! The files name each other as `crate::fsm` and so on; the crate's root imports these modules for that.

#[allow(dead_code)]
pub mod manchester {
    include!(env!("OXIDALI_MANCHESTER"));
}

#[allow(dead_code)]
pub mod fsm {
    use crate::platform as dali2rust_platform;
    include!(env!("OXIDALI_FSM"));
}

#[allow(dead_code)]
pub mod rx_decode {
    use crate::phy as dali2rust_dali_phy;
    include!(env!("OXIDALI_RX_DECODE"));
}

/// Stands for the root of the crate that `manchester` and `fsm` belong to, as `rx_decode` sees it.
pub mod phy {
    pub use crate::fsm::{RxCompletedEvent, LINE_HELD_TICKS};
    pub use crate::manchester::{
        BestPhaseSearch, BitLengths, IsrDecode, PhaseDecode, SampleWindow, SNIFFED_BIT_LENGTHS,
    };
}
